dnl The extension mysql_params. libmysql_params_c.a, the archive, and the sources of bindings/c stand beside this file: so
dnl they do in the package, and in the folder that bindings/php/build makes.
PHP_ARG_ENABLE([mysql-params], [whether to enable mysql_params],
  [AS_HELP_STRING([--enable-mysql-params], [Enable mysql_params])], [yes], [yes])

if test "$PHP_MYSQL_PARAMS" != "no"; then
  if test ! -f "$abs_srcdir/libmysql_params_c.a"; then
    AC_MSG_ERROR([libmysql_params_c.a is missing beside config.m4: bindings/php/build puts it there])
  fi
  for flag in -fstack-protector-strong "-U_FORTIFY_SOURCE -D_FORTIFY_SOURCE=2" -fstack-clash-protection -fcf-protection; do
    saved_cflags=$CFLAGS
    CFLAGS="$CFLAGS $flag"
    AC_MSG_CHECKING([whether the compiler takes $flag])
    AC_COMPILE_IFELSE([AC_LANG_PROGRAM()],
      [AC_MSG_RESULT([yes]); MYSQL_PARAMS_CFLAGS="$MYSQL_PARAMS_CFLAGS $flag"], [AC_MSG_RESULT([no])])
    CFLAGS=$saved_cflags
  done
  dnl The archive's names stay the module's own, and the loader refuses the module on a processor that it isn't for.
  for flag in -Wl,--exclude-libs,ALL -Wl,-z,relro -Wl,-z,now -Wl,-z,x86-64-v2 -Wl,--gc-sections; do
    saved_ldflags=$LDFLAGS
    LDFLAGS="$LDFLAGS $flag"
    AC_MSG_CHECKING([whether the linker takes $flag])
    AC_LINK_IFELSE([AC_LANG_PROGRAM()],
      [AC_MSG_RESULT([yes]); MYSQL_PARAMS_FLAGS="$MYSQL_PARAMS_FLAGS $flag"], [AC_MSG_RESULT([no])])
    LDFLAGS=$saved_ldflags
  done
  MYSQL_PARAMS_SHARED_LIBADD="$MYSQL_PARAMS_FLAGS $abs_srcdir/libmysql_params_c.a"
  PHP_SUBST([MYSQL_PARAMS_SHARED_LIBADD])
  PHP_NEW_EXTENSION([mysql_params],
    [mysql_params.c calls.c classes.c form.c kept.c messages.c moments.c refusals.c rows.c sending.c traces.c values.c mysql_params_form.c],
    [$ext_shared],, [-std=gnu11 -fvisibility=hidden -ffunction-sections $MYSQL_PARAMS_CFLAGS -DZEND_ENABLE_STATIC_TSRMLS_CACHE=1])
fi
