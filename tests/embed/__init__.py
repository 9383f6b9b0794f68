"""The checks of the C interface: include/niluppang.h, the library, the packages and the programs that use them."""
