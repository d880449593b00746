AC_INIT([codec], [1.2.0])
