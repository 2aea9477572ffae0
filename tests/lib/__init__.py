"""Helpers of the tests: built programs, servers, proxies, Bolt's bytes."""
