"""The versions of Bolt, as bolt.h numbers them."""

VERSIONS = NEWEST, V4_4, V5_0, V5_1 = 0, 44, 50, 51
