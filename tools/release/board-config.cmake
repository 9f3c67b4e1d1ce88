# The library for C, wherever the release is unpacked: find_package(board @number@ REQUIRED), with the release's folder
# in CMAKE_PREFIX_PATH.
#
# Then target_link_libraries(PROGRAM board::board) compiles and links with the library: the static one, if
# find_package asks for COMPONENTS static, else the shared one. board::static and board::shared are these two by name.
cmake_policy(PUSH)
cmake_policy(VERSION 3.5)
get_filename_component(_board_lib "${CMAKE_CURRENT_LIST_DIR}/../.." ABSOLUTE)
get_filename_component(_board_top "${_board_lib}/@up@" ABSOLUTE)

set(_board_static "${_board_lib}/libboard.a")
set(_board_shared "${_board_lib}/libboard.so.@number@")
set(board_static_FOUND TRUE)
set(board_shared_FOUND TRUE)
if(NOT TARGET board::static)
  add_library(board::static STATIC IMPORTED)
  set_target_properties(board::static PROPERTIES
    IMPORTED_LOCATION "${_board_static}"
    IMPORTED_LINK_INTERFACE_LANGUAGES C
    INTERFACE_INCLUDE_DIRECTORIES "${_board_top}/include")
endif()
if(NOT TARGET board::shared)
  add_library(board::shared SHARED IMPORTED)
  set_target_properties(board::shared PROPERTIES
    IMPORTED_LOCATION "${_board_shared}"
    IMPORTED_SONAME "libboard.so.@number@"
    INTERFACE_INCLUDE_DIRECTORIES "${_board_top}/include")
endif()

if(NOT TARGET board::board)
  add_library(board::board INTERFACE IMPORTED)
  if("static" IN_LIST board_FIND_COMPONENTS)
    set_target_properties(board::board PROPERTIES INTERFACE_LINK_LIBRARIES board::static)
  else()
    set_target_properties(board::board PROPERTIES INTERFACE_LINK_LIBRARIES board::shared)
  endif()
endif()

foreach(_board_component IN LISTS board_FIND_COMPONENTS)
  if(board_FIND_REQUIRED_${_board_component} AND NOT board_${_board_component}_FOUND)
    set(board_FOUND FALSE)
    set(board_NOT_FOUND_MESSAGE "board has no library '${_board_component}' for ${CMAKE_SYSTEM_PROCESSOR}")
  endif()
endforeach()
unset(_board_component)
unset(_board_lib)
unset(_board_shared)
unset(_board_static)
unset(_board_top)
cmake_policy(POP)
