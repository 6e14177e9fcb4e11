# For CMake on another processor than x86-64 (host/machine.mk): builds for x86-64, and runs what it built by an emulator.
set(CMAKE_SYSTEM_NAME Linux)
set(CMAKE_SYSTEM_PROCESSOR x86_64)
set(CMAKE_CXX_COMPILER "$ENV{CXX}")
set(CMAKE_CROSSCOMPILING_EMULATOR "$ENV{RUN}")
set(SANITIZE "$ENV{SANITIZE}" CACHE STRING "what the tests are built with")
