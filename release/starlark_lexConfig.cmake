# The targets starlark_lex::starlark_lex, the shared library, and starlark_lex::static.

get_filename_component(_starlark_lex_lib "${CMAKE_CURRENT_LIST_DIR}/../.." ABSOLUTE)
get_filename_component(_starlark_lex_include "${_starlark_lex_lib}/@UP@/include" ABSOLUTE)

if(NOT TARGET starlark_lex::starlark_lex)
  add_library(starlark_lex::starlark_lex SHARED IMPORTED)
  if(WIN32)
    set_target_properties(starlark_lex::starlark_lex PROPERTIES
      IMPORTED_LOCATION "${_starlark_lex_include}/../bin/starlark_lex-@ABI@.dll"
      IMPORTED_IMPLIB "${_starlark_lex_lib}/libstarlark_lex.dll.a"
      INTERFACE_COMPILE_DEFINITIONS STARLARK_LEX_SHARED)
  else()
    set_target_properties(starlark_lex::starlark_lex PROPERTIES
      IMPORTED_LOCATION "${_starlark_lex_lib}/libstarlark_lex.so.@VERSION@"
      IMPORTED_SONAME "libstarlark_lex.so.@ABI@")
  endif()
  set_target_properties(starlark_lex::starlark_lex PROPERTIES
    INTERFACE_INCLUDE_DIRECTORIES "${_starlark_lex_include}")

  add_library(starlark_lex::static STATIC IMPORTED)
  set_target_properties(starlark_lex::static PROPERTIES
    IMPORTED_LOCATION "${_starlark_lex_lib}/libstarlark_lex.a"
    INTERFACE_INCLUDE_DIRECTORIES "${_starlark_lex_include}")
endif()

unset(_starlark_lex_lib)
unset(_starlark_lex_include)
