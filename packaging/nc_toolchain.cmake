# For CMake: compiles a project for the sandbox, by cmake -DCMAKE_TOOLCHAIN_FILE=PREFIX/lib/cmake/nc_host/nc_toolchain.cmake.
set(CMAKE_SYSTEM_NAME Generic)
set(CMAKE_SYSTEM_PROCESSOR i686)

# The compilers beside this file, where it is installed and in the source repository; else those on PATH.
set(nc_PLACES "${CMAKE_CURRENT_LIST_DIR}/../../../bin" "${CMAKE_CURRENT_LIST_DIR}/../compiler")
find_program(nc_CC NAMES nc-cc HINTS ${nc_PLACES} REQUIRED)
find_program(nc_CXX NAMES nc-c++ HINTS ${nc_PLACES} REQUIRED)
set(CMAKE_C_COMPILER "${nc_CC}")
set(CMAKE_CXX_COMPILER "${nc_CXX}")
set(CMAKE_ASM_COMPILER "${nc_CC}")

# What the project runs, such as its tests: relative names are below the folder where it runs, and its own folders have their names.
find_program(nc_RUN NAMES nc-run HINTS ${nc_PLACES} "${CMAKE_CURRENT_LIST_DIR}/../out/sandbox")
if(nc_RUN)
    set(CMAKE_CROSSCOMPILING_EMULATOR "${nc_RUN}" --dir-rw . --dir "${CMAKE_SOURCE_DIR}=${CMAKE_SOURCE_DIR}"
        --dir-rw "${CMAKE_BINARY_DIR}=${CMAKE_BINARY_DIR}")
endif()
unset(nc_PLACES)

# CMake's own test programs begin at main, and a program for the sandbox at start.
set(CMAKE_TRY_COMPILE_TARGET_TYPE STATIC_LIBRARY)

# Libraries and headers of this system aren't for the sandbox. A project's own are below CMAKE_FIND_ROOT_PATH.
set(CMAKE_FIND_ROOT_PATH_MODE_PROGRAM NEVER)
set(CMAKE_FIND_ROOT_PATH_MODE_LIBRARY ONLY)
set(CMAKE_FIND_ROOT_PATH_MODE_INCLUDE ONLY)
set(CMAKE_FIND_ROOT_PATH_MODE_PACKAGE ONLY)
if(NOT DEFINED ENV{PKG_CONFIG_LIBDIR})
    set(ENV{PKG_CONFIG_LIBDIR} "${CMAKE_CURRENT_LIST_DIR}/../../../share/reedbodkin/libc/pkgconfig")
endif()
