# cross.sh: environment to build Rust for x86-64 on this machine and run it through an emulator
export RUSTC=$(dpkg -L rustc-web | grep -m1 '/bin/rustc')
export CARGO_BUILD_TARGET=x86_64-unknown-linux-gnu
export CARGO_TARGET_X86_64_UNKNOWN_LINUX_GNU_LINKER=x86_64-linux-gnu-gcc
export Q=/usr/bin/qemu-x86_64
export CARGO_TARGET_X86_64_UNKNOWN_LINUX_GNU_RUNNER=qemu-x86_64
export CC=x86_64-linux-gnu-gcc EMULATOR=qemu-x86_64
export RUSTDOC=/usr/bin/rustdoc
