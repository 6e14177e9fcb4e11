# What this build runs on. The kit writes code for x86-64 alone (x86-64-v2), so on any other processor what is linked to libpws.a is
# cross-built, and run by an emulator. Today's kit has executables for x86-64 alone too; what stands here for Arm was tried with the
# older kit, which ran there, and serves where rt runs on Arm. No other file asks for the processor; `make MACHINE=aarch64 ..` shows what
# Arm would do.
MACHINE ?= $(shell uname -m)

NEEDS = rt g++ cargo make awk
NATIVE_CXX := $(CXX)
REPORT = target/bin/report
SANITIZE = address,undefined
QUICK = --quick
# Nothing is emulated or cross-built, whatever the environment says.
RUN =
TRIPLE =
CROSS_CARGO =

ifneq ($(MACHINE),x86_64)
TRIPLE = x86_64-unknown-linux-gnu
NEEDS += x86_64-linux-gnu-g++ qemu-x86_64 /lib64/ld-linux-x86-64.so.2 /usr/bin/cargo /usr/lib/rustlib/$(TRIPLE)/lib
PACKAGES = g++-x86-64-linux-gnu qemu-user rustc-web cargo-web libstd-rust-web-dev:amd64

CXX = x86_64-linux-gnu-g++
CLANG = clang++ --target=x86_64-linux-gnu
# Without -L: with it and the cross compiler's libraries even an empty program dies. The processor that qemu takes by itself is older than
# the kit's code is for.
RUN = qemu-x86_64
export QEMU_CPU = max
# In qemu 7.2 AddressSanitizer's shadow takes all memory: peer-test has it, on this very processor.
SANITIZE = undefined -static-libubsan
# Debian's own, since a toolchain of rustup has no library for x86-64.
CROSS_CARGO = RUSTC=/usr/bin/rustc CARGO_BUILD_TARGET=$(TRIPLE) CARGO_TARGET_X86_64_UNKNOWN_LINUX_GNU_RUNNER="$(RUN)" \
    CARGO_TARGET_X86_64_UNKNOWN_LINUX_GNU_LINKER=x86_64-linux-gnu-gcc /usr/bin/cargo
CMAKE_TOOLCHAIN_FILE = $(CURDIR)/host/emulated.cmake
export PACKAGES CXX CLANG RUN SANITIZE CMAKE_TOOLCHAIN_FILE

# The report program is linked by rt, not here: it runs by the kit's own loader and C library.
REPORT = target/emulated/report
TOOLCHAIN = $(dir $(shell rt doc))toolchain
RUN_REPORT = $(RUN) $(TOOLCHAIN)/lib/ld-linux-x86-64.so.2 --library-path $(TOOLCHAIN)/lib
# Times that an emulator takes say nothing.
QUICK = --compare
endif
