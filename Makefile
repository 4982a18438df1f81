# The commands beside the gate. Each is one line here and does what its name says.

PREFIX = /usr/local
DESTDIR =

# The library, proved and built, and the program made of it.
all: library desk

# The library for a controller in C.
library:
	tools/build.sh groovepawn

# The program `groovepawn`, over the library that is there.
desk:
	cd rust && GROOVEPAWN_KIT="$$(rt version 2>/dev/null || echo not named)" cargo build --release --offline

# Puts library, headers, pkg-config file, program and man page where they are found. What was not built is not there: `make` first.
install:
	tools/install.sh "$(DESTDIR)$(PREFIX)"

# All of that as a tarball in target/dist, the same for the same sources and tools, and its hashes.
dist:
	tools/dist.sh

# The gate and every test beside it, with a table at the end.
check:
	tools/check-all.sh

# The page on which policies are tried: one HTML file over the library, target/playground/groovepawn.html.
playground:
	playground/make.sh

# That page, tested in Chromium.
playground-check: playground
	playground/test.sh

# The library made for and tested on the processors that stations have.
processors:
	tools/cross-test.sh

.PHONY: all library desk install dist check playground playground-check processors
