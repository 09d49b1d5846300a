# `make test` passes the tests; `./plan` is the main job. Both need the Rattle toolchain's `rt` on the PATH.
.PHONY: bench-host firmware host library test
.DELETE_ON_ERROR:

# rt ci, whose last line counts, comes last
test:
	scripts/check-docs
	scripts/check-api
	scripts/make-help --check
	scripts/build plan settings
	scripts/check-host
	scripts/check-firmware
	scripts/check-plan
	@scripts/ci

# for C and Rust to link
library: target/staticlib/libclock_api.a
	@:

target/staticlib/libclock_api.a: crates.txt scripts/c-crates scripts/library $(shell find crates -name out -prune -o \( -name '*.rt' -o -name '*.antt' \) -print)
	@mkdir -p target && scripts/library >target/library.log 2>&1 || { cat target/library.log; exit 1; }

# for a Cortex-M33 to link: docs/FIRMWARE.md
archives := target/firmware/libclock_api-cortex-m33.a target/firmware/libclock_api-cortex-m33-hard.a
firmware: $(archives)
	@:

$(archives) &: scripts/firmware scripts/c-crates target/staticlib/libclock_api.a
	@scripts/firmware

# the planner's library from C and Rust, and against the HAL's sources
host:
	scripts/check-host

# the time of a request, beside the HAL's sources
bench-host: library
	@cd host && CLOCK_API_LIB="$(CURDIR)/target/staticlib" CARGO_TARGET_DIR="$(CURDIR)/host/target" cargo run -q --offline --release -p bench
