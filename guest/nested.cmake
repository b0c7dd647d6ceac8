# The toolchain file of CMake for guests: cmake -DCMAKE_TOOLCHAIN_FILE=KIT/lib/nested.cmake, where KIT is the folder of this kit.
get_filename_component(NESTED_KIT "${CMAKE_CURRENT_LIST_DIR}/.." ABSOLUTE)

# Platform/Nested.cmake stands beside this file
set(CMAKE_SYSTEM_NAME Nested)
set(CMAKE_SYSTEM_PROCESSOR mips)
list(APPEND CMAKE_MODULE_PATH "${CMAKE_CURRENT_LIST_DIR}")

set(CMAKE_C_COMPILER "${NESTED_KIT}/bin/nested-gcc")
set(CMAKE_CXX_COMPILER "${NESTED_KIT}/bin/nested-g++")
set(CMAKE_AR "${NESTED_KIT}/bin/nested-ar" CACHE FILEPATH "")
set(CMAKE_RANLIB "${NESTED_KIT}/bin/nested-ranlib" CACHE FILEPATH "")
set(CMAKE_STRIP "${NESTED_KIT}/bin/nested-strip" CACHE FILEPATH "")
set(PKG_CONFIG_EXECUTABLE "${NESTED_KIT}/bin/nested-pkg-config" CACHE FILEPATH "")

# what the build runs of what it made, where the program nested can be found
if(DEFINED ENV{NESTED})
    set(NESTED_PROGRAM "$ENV{NESTED}" CACHE FILEPATH "")
else()
    find_program(NESTED_PROGRAM nested)
endif()
if(NESTED_PROGRAM)
    set(CMAKE_CROSSCOMPILING_EMULATOR "${NESTED_KIT}/bin/nested-run" CACHE STRING "")
endif()

# programs of the build are this machine's, what is compiled against is the kit's
set(CMAKE_FIND_ROOT_PATH "${NESTED_KIT}")
set(CMAKE_FIND_ROOT_PATH_MODE_PROGRAM NEVER)
set(CMAKE_FIND_ROOT_PATH_MODE_LIBRARY ONLY)
set(CMAKE_FIND_ROOT_PATH_MODE_INCLUDE ONLY)
set(CMAKE_FIND_ROOT_PATH_MODE_PACKAGE ONLY)
