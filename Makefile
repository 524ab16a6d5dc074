# `make` builds build/rafterloop over the proved library; `make test` runs it on good and bad logs; `make fold` folds the samples.
# The library is x86-64. So on another processor the programs are built for x86-64 too, and the emulator of rt's kit runs them.
HERE := $(shell uname -m)
ifeq ($(HERE),x86_64)
# x86-64: cc, and no emulator
CC = cc
RUN =
else
TOOLS := $(patsubst %/START-HERE.md,%,$(shell rt doc))/on/$(HERE)/toolchain
RUN = $(TOOLS)/bin/qemu-x86_64
ifneq ($(shell command -v x86_64-linux-gnu-gcc 2> /dev/null),)
# another processor with a cross compiler: that, with its own C library
CC = x86_64-linux-gnu-gcc
RUN += -L /usr/x86_64-linux-gnu
else
# another processor without one: the kit's clang, linker, start files and C library, and the headers where cc finds its own
CC = $(TOOLS)/bin/clang --target=x86_64-linux-gnu -nostdinc $(HEADERS) -nostdlib -fuse-ld=lld
HEADERS := $(shell LC_ALL=C cc -E -v -x c /dev/null 2>&1 | sed -n '/^.include </,/^End/s|^ |-isystem |p')
LDLIBS = -Wl,--dynamic-linker=$(TOOLS)/lib/ld-linux-x86-64.so.2,-rpath=$(TOOLS)/lib \
    $(addprefix $(TOOLS)/lib/,Scrt1.o crti.o crtbeginS.o libc.so.6 libc_nonshared.a libgcc.a crtendS.o crtn.o)
endif
endif
CFLAGS = -std=c11 -D_POSIX_C_SOURCE=200809L -O2 -g -Wall -Wextra -Werror
LIB = target/staticlib/libhost.a

all: build/rafterloop

# rt keeps what is proved, so an unchanged library is built again at once
$(LIB): crates.txt $(wildcard crates/*/src/*.rt)
	cd crates/host_c && rt lib
	mkdir -p $(@D)
	cp crates/host_c/out/libhost_c.a $(LIB)

build/%: host/%.c host/rafterloop.h $(LIB)
	mkdir -p build
	$(CC) $(CFLAGS) -Ihost -o $@ $< $(LIB) $(LDLIBS)

test: build/rafterloop build/answers
	RUN="$(RUN)" sh host/test.sh

fold: build/rafterloop
	$(RUN) build/rafterloop fold samples/cold-morning.log

compare: build/answers
	python3 oracle/compare.py --run "$(RUN)"

build/ours: bench/ours.c host/rafterloop.h $(LIB)
	mkdir -p build
	$(CC) $(CFLAGS) -O3 -Ihost -o $@ $< $(LIB) $(LDLIBS)

speed: build/ours
	python3 bench/run.py --run "$(RUN)"

# on a machine that isn't x86-64: times all the same, of the library's module built for it
speed-here:
	sh bench/native.sh
	python3 bench/run.py --ours build/native/ours --built-for-here

clean:
	rm -rf build

.PHONY: all test fold compare speed speed-here clean
