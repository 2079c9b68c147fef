# The library for find_package: weighbridge-terminal::static is its archive, weighbridge-terminal::shared its shared library.
get_filename_component(_weighbridge_terminal_libdir "${CMAKE_CURRENT_LIST_DIR}/../.." ABSOLUTE)
get_filename_component(_weighbridge_terminal_prefix "${_weighbridge_terminal_libdir}/../.." ABSOLUTE)
if(NOT TARGET weighbridge-terminal::static)
  add_library(weighbridge-terminal::static STATIC IMPORTED)
  set_target_properties(weighbridge-terminal::static PROPERTIES
    IMPORTED_LOCATION "${_weighbridge_terminal_libdir}/libweighbridge-terminal.a"
    INTERFACE_INCLUDE_DIRECTORIES "${_weighbridge_terminal_prefix}/include")
  add_library(weighbridge-terminal::shared SHARED IMPORTED)
  set_target_properties(weighbridge-terminal::shared PROPERTIES
    IMPORTED_LOCATION "${_weighbridge_terminal_libdir}/libweighbridge-terminal.so.2"
    IMPORTED_SONAME "libweighbridge-terminal.so.2"
    INTERFACE_INCLUDE_DIRECTORIES "${_weighbridge_terminal_prefix}/include")
endif()
