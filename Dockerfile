# A Debian with the emulator and all that its tools use, for Docker and Podman. docs/manual/setup.md says how to build and use it.
# scripts/fresh runs the lines of RUN in a new Debian, since no engine is wanted for that.
FROM debian:bookworm-slim

# For programs in C, and for names of their lines.
RUN apt-get update \
    && DEBIAN_FRONTEND=noninteractive apt-get install -y --no-install-recommends \
        gcc-riscv64-unknown-elf picolibc-riscv64-unknown-elf python3 python3-pyelftools \
    && rm -rf /var/lib/apt/lists/* /usr/lib/picolibc/*/lib/release

# For pictures, and for gdb.
RUN apt-get update \
    && DEBIAN_FRONTEND=noninteractive apt-get install -y --no-install-recommends gdb-multiarch python3-matplotlib \
    && rm -rf /var/lib/apt/lists/*

COPY . /usr/local/src/bspemu
RUN /usr/local/src/bspemu/scripts/install --prefix /usr/local \
    && rm -rf /usr/local/src/bspemu

RUN useradd --create-home --shell /bin/bash student
USER student
WORKDIR /home/student
CMD ["bash"]
