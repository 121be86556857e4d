/* The table and the choices of the tests: one agent sends its register 0, which is 5, and another
   receives it in register 1. */
#define TABLE                                                                                      \
    "000000000005000000000000000000000000\n"                                                       \
    "010020000000000000070000000100000003\n"                                                       \
    "000100000000000000000000000000000000\n"                                                       \
    "010130010000000000070000000400000008\n"                                                       \
    "FF\n"
#define CHOICES "020000000003\n020100000004\n"
