# find_package(mysql_params @VERSION@ REQUIRED), then target_link_libraries(program PRIVATE mysql_params::mysql_params), or
# mysql_params::static. Meson takes the file of pkg-config: dependency('mysql_params').
if(NOT TARGET mysql_params::mysql_params)
    get_filename_component(_mysql_params_libraries "${CMAKE_CURRENT_LIST_DIR}/../.." ABSOLUTE)
    get_filename_component(_mysql_params_include "${_mysql_params_libraries}/../../include" ABSOLUTE)
    add_library(mysql_params::mysql_params SHARED IMPORTED)
    set_target_properties(mysql_params::mysql_params PROPERTIES
        IMPORTED_LOCATION "${_mysql_params_libraries}/libmysql_params.so.@MAJOR@"
        IMPORTED_SONAME "libmysql_params.so.@MAJOR@"
        INTERFACE_INCLUDE_DIRECTORIES "${_mysql_params_include}")
    add_library(mysql_params::static STATIC IMPORTED)
    set_target_properties(mysql_params::static PROPERTIES
        IMPORTED_LOCATION "${_mysql_params_libraries}/libmysql_params.a"
        INTERFACE_INCLUDE_DIRECTORIES "${_mysql_params_include}")
    unset(_mysql_params_libraries)
    unset(_mysql_params_include)
endif()
