"""`bolt.driver` over TLS, by the scheme of its URI and by options."""
import paths  # noqa: F401

import ssl
import unittest

import bolt
import driving
import test_tls
from bolt import exceptions, options
from fakes import Fake

# The test of TLS makes the certificate.
setUpModule = test_tls.setUpModule


def trusting():
    """Returns options that trust the certificate of the test."""
    return {
        "encrypted": True,
        "trusted_certificates": options.TrustCustomCAs(f"{test_tls.FOLDER}/certificate.pem"),
    }


class Tls(driving.PoolCase):
    """A server that is reached through a tunnel of TLS."""

    def setUp(self):
        super().setUp()
        self.fake = Fake()
        self.addCleanup(self.fake.__exit__)
        self.tunnel = test_tls.Tunnel(self.fake.port)
        self.addCleanup(self.tunnel.__exit__)

    def ask(self, scheme, **config):
        """Returns what a query by a driver returns."""
        uri = f"{scheme}://localhost:{self.tunnel.port}"
        with bolt.driver(uri, auth=driving.USER, max_transaction_retry_time=0, **config) as driver:
            self.pools.append(driver.pool)
            return driver.encrypted, driver.execute_query("PUT").records[0].values()

    async def ask_by_aio(self, scheme, **config):
        uri = f"{scheme}://localhost:{self.tunnel.port}"
        async with bolt.async_driver(uri, auth=driving.USER, **config) as driver:
            return driver.encrypted, (await driver.execute_query("PUT")).records[0].values()

    def test_any_certificate(self):
        self.assertEqual((True, [1]), self.ask("bolt+ssc"))
        trust = options.TrustAll()
        self.assertEqual((True, [1]), self.ask("bolt", encrypted=True, trusted_certificates=trust))

    def test_certificate_of_a_file(self):
        self.assertEqual((True, [1]), self.ask("bolt", **trusting()))
        context = ssl.create_default_context(cafile=f"{test_tls.FOLDER}/certificate.pem")
        self.assertEqual((True, [1]), self.ask("bolt", ssl_context=context))

    def test_unknown_certificate_is_refused(self):
        for config in ({}, {"encrypted": True}):
            with self.subTest(config):
                why = driving.raised(self.ask, "bolt" if config else "bolt+s", **config)
                self.assertEqual(exceptions.ServiceUnavailable, type(why))
                self.assertIn("the server's certificate isn't trusted", str(why))
                self.assertIsInstance(why.__cause__, ssl.SSLCertVerificationError)

    def test_plain_driver_names_tls(self):
        why = driving.raised(self.ask, "bolt", connection_timeout=2)
        self.assertEqual(exceptions.ServiceUnavailable, type(why))
        self.assertIn("bolt+s://", str(why))

    @driving.in_loop
    async def test_asyncio(self):
        self.assertEqual((True, [1]), await self.ask_by_aio("bolt+ssc"))
        self.assertEqual((True, [1]), await self.ask_by_aio("bolt", **trusting()))
        why = await driving.awaited(self.ask_by_aio("bolt+s", max_transaction_retry_time=0))
        self.assertIn("the server's certificate isn't trusted", str(why))


if __name__ == "__main__":
    unittest.main()
