{
  "targets": [
    {
      "target_name": "mysql_params",
      "sources": [
        "native/calls.c",
        "native/module.c",
        "native/rows.c",
        "native/values.c",
        "native/mysql_params_form.c"
      ],
      "include_dirs": ["native"],
      "cflags": [
        "-std=c11",
        "-fvisibility=hidden",
        "-fstack-protector-strong",
        "-U_FORTIFY_SOURCE",
        "-D_FORTIFY_SOURCE=2",
        "-fstack-clash-protection",
        "-fcf-protection"
      ],
      "libraries": ["<(module_root_dir)/native/libmysql_params_c.a"],
      "ldflags": ["-Wl,--exclude-libs,ALL", "-Wl,-z,relro", "-Wl,-z,now", "-Wl,-z,x86-64-v2"]
    }
  ]
}
