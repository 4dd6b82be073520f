# crushcalc: `make help` says what there is. Proofs and builds are made by the Rattle toolchain's
# command rt.

RT = rt
PREFIX = /usr/local
CRATES =
define newline


endef

# what processors the programs are built for, by rt run's --cpu: rt's own choice, or this
CPU =
SCRIPT = examples/first.script
CASES =
PORT = 8080
INPUTS = 1000000
SECONDS = 600
KILLS = 1000
HISTORIES = 4
SEED = $(shell date +%s)
# make package-check: an earlier package, from which the new one is an upgrade
BEFORE =
# make rebuild-check: the program names its commit, as a release's does; or the folder of a release
STAMP =
RELEASE =
CPUS = x86-64 x86-64-v2 x86-64-v3
FOR = $(if $(CPU),--cpu=$(CPU))
ifneq ($(filter-out $(CPUS),$(CPU)),)
  $(error CPU=$(CPU) is none of $(CPUS))
endif
ifneq ($(and $(CPU),$(filter test test-all release,$(MAKECMDGOALS))),)
  $(error make $(filter test test-all release,$(MAKECMDGOALS)) tries the program as rt builds it with no CPU: tests/README.md says how to try another)
endif
ifneq ($(and $(filter x86-64,$(CPU)),$(filter package package-check,$(MAKECMDGOALS))),)
  $(error There is a package for x86-64-v2 and one for x86-64-v3, and none for CPU=x86-64)
endif
# what is Python by its name, or by its first line
PYTHON = $(sort $(shell find bench examples package tests tools -name '*.py'; grep -rlI '^.!.*python3' bench examples package tests tools))
SOURCES = $(shell find crates -name out -prune -o \( -name '*.rt' -o -name '*.antt' \) -print)

build: crushcalc parts
	@echo 'The program is ./crushcalc.'

# the lines that begin with '##': a target, two blanks or more, and what it does
help:
	@sed -n 's/^## \?//p' $(firstword $(MAKEFILE_LIST))

## make build     proves the crates of the program and builds it as ./crushcalc, optimised (the
##                first time: an hour or more); with CPU=x86-64-v3 for processors since about 2013
##                (AVX2): quicker reports, and on an older one it ends with status 127
## make try       builds build/try/crushcalc with no proof, in a minute or two, and plays
##                examples/first.script, or SCRIPT=FILE, by it: each request with its reply.
##                tools/crushplan asks it where there is no ./crushcalc
## make cases     plays the scripts of tests/program/cases, or those with CASES=WORD in their names, with no
##                proof, in a minute, and compares their replies
## make run       builds, and serves examples/first.script or SCRIPT=FILE: each request with its reply
## make serve     builds, and serves HTTP on 127.0.0.1:8080, or PORT=N, with the tenants in
##                build/tenants.db
## make page      builds, and serves the planner's page on 127.0.0.1:8080, or PORT=N, by nginx, with
##                the tenants in build/page/tenants.db
## make install   builds, and installs PREFIX/bin/crushcalc and crushplan (PREFIX=/usr/local)
## make clean     removes what was built, the finished proofs too
##
## make test      every proof from nothing, tests, the program from end to end, and the wrong bodies
##                whose record a change made stale, as many as 50 minutes last for
## make test-all  the same with every wrong body
## make wrong     tries the wrong bodies whose record is stale, or of CRATES="NAME..", and records
##                what refused them; CRATES=--plan says how long that takes
## make only-tested   tries the wrong bodies that contracts let through, and records which test
##                refused each
## make form      formats the sources of each crate, and Python by black; make test refuses crates in
##                another form, and lines of Python or JavaScript of over 120 columns
## make bench     builds and measures; beside Ceph's own library where that is installed
## make instructions   counts the instructions of some eighty works beside the recorded ones, and
##                fails where one grew by over 2 %
##
## make package   builds, and makes a Debian package and a tarball of the program, the page, the
##                pages and the unit: build/package
## make release   make test with every wrong body that has no valid record, and with a program that
##                names its commit; then make dist
## make dist      a release of what the last gate proved and built, or a word why there is none:
##                dist/crushcalc-VERSION
##
## Checks beside make test, each on the built program:
## make ceph-check      compares 286,000 mappings, 128,000 placements, names, impacts, texts and plans
##                with those of Ceph's own library, osdmaptool and crushtool
## make cluster-check   starts real Ceph clusters on this machine, foretells by crushplan what drains,
##                failures, upmap items and changed maps of the seed SEED=S (the time) do to them,
##                does it, and compares: some 20 minutes
## make manager-check      starts a real Ceph cluster of eight OSDs with the module crushplan in its
##                manager: commands, health checks that appear and go, programs that fail; and
##                one of 1,000 OSDs that never start: how long it answers others, its memory
## make prometheus-check   tries the metrics and alerts by promtool, and by a real Prometheus that
##                scrapes a real node_exporter
## make http-check      compares replies of the server with those of scripts, by curl, nginx and
##                other clients
## make machines-check      objects in bulk and searches over several machines, by GNU parallel and
##                Dask, on this one; as root also tenants that move and machines that die: 20 minutes
## make page-check      tries the page in chromium; pictures of it are in build/page-check
## make package-check   as root: installs the package in a Debian with nothing else, made by
##                debootstrap, uses it, upgrades it from BEFORE=FILE and removes it
## make rebuild-check   builds the commit twice, in folders of different names (the gate's build is
##                one of them), and compares programs and packages to the byte; with
##                RELEASE=FOLDER builds a release's commit, and compares with its sums
## make sqlite-check    compares database files with those of the tool sqlite3, both ways
## make refused-check   refuses each allocation in turn, in memory, over a file and in a server:
##                some 110,000 runs
## make fuzz-check      1,000,000 damaged inputs, or INPUTS=N, of the seed SEED=S (the time): lines,
##                texts, bodies and streams
## make sanitized-check   the same of 20,000 inputs, each script again with AddressSanitizer
## make stops-check     cuts and changes logs of killed runs for SECONDS=600, of the seed SEED=S (the
##                time); then stops sessions at each call on their file, its log and their folder,
##                and HISTORIES=4 of 51 sessions each at random calls, with cuts of the power too
## make kill-check      kills the program at 1,000 random moments, or KILLS=N, as a script and as a
##                server, and compares what its files hold

# rt is itself a python3 program; tests/allocations/refuse.c, stop.c and record.c need a C compiler
tools:
	@command -v python3 >/dev/null || sh tools/need python3
	@[ -z '$(filter test test-all release,$(MAKECMDGOALS))' ] || sh tools/need cc=gcc /usr/include/stdio.h=libc6-dev
	@command -v $(RT) >/dev/null 2>&1 || { \
	  echo "The Rattle toolchain is missing: there is no command '$(RT)'. Put the folder bin/ of its kit on PATH, or give make RT=/path/to/rt." >&2; \
	  echo "Nothing can be proved, tried or built without it. A release's package needs none of it: docs/RELEASES.md says how it is installed." >&2; exit 1; }

# crushplan's parts as Python keeps them, so that its runs don't compile them anew
parts:
	@python3 -m compileall -q tools/crushplan_parts

# the CPU that the programs were last built for; where another is named this changes, and they are
# built again
build/cpu: any
	@mkdir -p build
	@echo '$(CPU)' | cmp -s - $@ || echo '$(CPU)' >$@

any:

# the crates are proved side by side; then rt run builds crates/crushcalc/out/crushcalc by LLVM at
# -O3, and runs it; with CPU it checks this crate again, over what its proof kept
crushcalc: $(SOURCES) crates.txt HANDLES build/cpu | tools
	@mkdir -p build
	@echo 'Proving the crates and building ./crushcalc: the first time an hour or more on four cores, later what changed.'
	@{ (cd crates/crushcalc && $(RT) all check --jobs $$(nproc)) 2>&1; echo "$$?" >build/build.status; } | tee build/build.log | awk -v crate=crushcalc -f tools/progress.awk crates.txt -
	@[ "$$(cat build/build.status)" = 0 ] || { tail -n 30 build/build.log; echo 'The proofs failed; the whole log is build/build.log.' >&2; exit 1; }
	@(cd crates/crushcalc && $(RT) run $(FOR) -- --help) >build/help.txt 2>>build/build.log || { tail -n 30 build/build.log; echo 'The build failed; the whole log is build/build.log.' >&2; exit 1; }
	@cp crates/crushcalc/out/crushcalc crushcalc
	@echo 'Built ./crushcalc$(if $(CPU), for $(CPU)).'

# what make bench measures beside Ceph, and what answers mappings with reweights; built in the same
# way
build/crush_bench: $(SOURCES) crates.txt HANDLES build/cpu | tools
	@mkdir -p build
	@echo 'Proving and building crush_bench, which is measured. build/bench.log shows how far it is.'
	@(cd crates/crush_bench && $(RT) run $(FOR) -- small) >build/bench.txt 2>build/bench.log || { tail -n 30 build/bench.log; echo 'The build failed; the whole log is build/bench.log.' >&2; exit 1; }
	@cp crates/crush_bench/out/crush_bench build/crush_bench

# a script's lines, each with its reply; an empty line has none
SHOW = awk '$$0 != "" && $$0 != "\r" { print "> " $$0; getline reply <"build/replies"; print reply }' '$(SCRIPT)'

# built again where its sources changed, else there at once
try: tools parts
	@mkdir -p build
	@[ -r '$(SCRIPT)' ] || { echo "There is no file '$(SCRIPT)' to play." >&2; exit 1; }
	@RT='$(RT)' python3 tools/played --keep build/try/crushcalc
	@echo 'Playing $(SCRIPT) by build/try/crushcalc. It is unproved; make run proves the program and builds it.'
	@build/try/crushcalc script <'$(SCRIPT)' >build/replies
	@$(SHOW)

# rt try takes a folder of inputs, each beside what has to be written
cases: tools
	@rm -rf build/cases && mkdir -p build/cases
	@for it in tests/program/cases/*$(CASES)*.in; do name=$$(basename "$$it" .in); \
	  cp "tests/program/cases/$$name.in" "build/cases/$$name" && cp "tests/program/cases/$$name.out" "build/cases/$$name.stdout" || exit 1; done
	@echo 'Playing $(if $(CASES),the scripts of tests/program/cases with $(CASES) in their names,the scripts of tests/program/cases) with no proof: a minute.'
	@RT='$(RT)' python3 tools/played --cases "$$PWD/build/cases"

run: build
	@echo 'Serving $(SCRIPT):'
	@./crushcalc script <'$(SCRIPT)' >build/replies
	@$(SHOW)

test: tools
	@RT='$(RT)' python3 tests/all

test-all: tools
	@RT='$(RT)' python3 tests/all --all

wrong: tools
	@RT='$(RT)' python3 tests/gate/wrong $(CRATES)

form: tools
	@for crate in crates/*; do (cd "$$crate" && $(RT) fmt) || exit 1; done
	@sh tools/need black
	@black -q $(PYTHON)

install: build
	@echo 'Installing $(DESTDIR)$(PREFIX)/bin/crushcalc'
	@install -d '$(DESTDIR)$(PREFIX)/bin'
	@install -m 755 crushcalc '$(DESTDIR)$(PREFIX)/bin/crushcalc'
	@echo 'Installing the planner'"'"'s command: $(DESTDIR)$(PREFIX)/bin/crushplan'
	@install -m 755 tools/crushplan '$(DESTDIR)$(PREFIX)/bin/crushplan'
	@install -d '$(DESTDIR)$(PREFIX)/share/crushcalc/crushplan_parts' '$(DESTDIR)$(PREFIX)/share/bash-completion/completions' '$(DESTDIR)$(PREFIX)/share/zsh/site-functions'
	@install -m 644 tools/crushplan_parts/*.py '$(DESTDIR)$(PREFIX)/share/crushcalc/crushplan_parts'
	@python3 -m compileall -q -s '$(DESTDIR)' '$(DESTDIR)$(PREFIX)/share/crushcalc/crushplan_parts'
	@install -m 644 tools/crushplan.bash '$(DESTDIR)$(PREFIX)/share/bash-completion/completions/crushplan'
	@install -m 644 tools/crushplan.zsh '$(DESTDIR)$(PREFIX)/share/zsh/site-functions/_crushplan'
	@echo 'Installing the page: $(DESTDIR)$(PREFIX)/share/crushcalc/web'
	@install -d '$(DESTDIR)$(PREFIX)/share/crushcalc/web'
	@install -m 644 web/* '$(DESTDIR)$(PREFIX)/share/crushcalc/web'

# lintian's overrides, with their reasons, are in package/
package: build
	@sh tools/need dpkg-deb=dpkg lintian
	@rm -rf build/package
	@python3 package/build ./crushcalc build/package $(if $(filter x86-64-v3,$(CPU)),--v3)
	@lintian --allow-root --fail-on error,warning build/package/*.deb

rebuild-check: tools
	@RT='$(RT)' python3 tools/rebuild $(if $(RELEASE),--release '$(RELEASE)',$(if $(STAMP),--stamp))

release: tools
	@python3 tools/dist --ready
	@RT='$(RT)' python3 tests/all --stamp
	@RT='$(RT)' python3 tools/dist

dist: tools
	@RT='$(RT)' python3 tools/dist

serve: build
	@mkdir -p build
	@./crushcalc serve --db build/tenants.db --port $(PORT)

# What a check needs (tools/need) and does; Debian's modules are those of /usr/bin/python3.
CEPH = $(shell sh bench/libceph)=librados2 crushtool=ceph-base osdmaptool=ceph-base gcc /usr/include/stdio.h=libc6-dev
NEEDS_ceph = $(CEPH)
NEEDS_cluster = ceph-mon ceph-mgr ceph-osd ceph=ceph-common crushtool=ceph-base python:rados=python3-rados
NEEDS_manager = $(NEEDS_cluster) /usr/share/ceph/mgr/mgr_module.py=ceph-mgr-modules-core
NEEDS_prometheus = promtool=prometheus prometheus prometheus-node-exporter systemd-analyze=systemd
NEEDS_http = curl nginx openssl systemd-analyze=systemd ab=apache2-utils mkfs.btrfs=btrfs-progs nft=nftables python:jsonschema=python3-jsonschema python:yaml=python3-yaml /usr/share/openapi-specification=openapi-specification
NEEDS_machines = parallel openssl python:distributed=python3-distributed osdmaptool=ceph-base $(NEEDS_cluster) ceph-mds ceph-fuse keepalived nginx curl ip=iproute2 nsenter=util-linux
NEEDS_page = nginx openssl $(D3)=libjs-d3 chromium chromedriver=chromium-driver python:selenium=python3-selenium
NEEDS_package = debootstrap unshare=util-linux
NEEDS_sqlite = sqlite3

define CHECK_ceph
python3 tests/ceph/check_names
python3 tests/ceph/check_logarithms
python3 tests/ceph/check ./crushcalc build/crush_bench
python3 tests/ceph/check_pools ./crushcalc
python3 tests/ceph/check_exceptions ./crushcalc
python3 tests/ceph/check_impacts ./crushcalc
python3 tests/ceph/check_texts ./crushcalc build/crush_bench
python3 tests/ceph/check_plan --program ./crushcalc --seed $(SEED) tools/crushplan
python3 tests/ceph/check_balance --program ./crushcalc --seed $(SEED) tools/crushplan
endef
CHECK_cluster = python3 tests/cluster/check ./crushcalc --seed $(SEED)
define CHECK_manager
python3 tests/manager/check ./crushcalc
python3 tests/manager/large ./crushcalc
endef
CHECK_prometheus = python3 tests/prometheus/check ./crushcalc
CHECK_http = python3 tests/http/check ./crushcalc
CHECK_machines = python3 tests/machines/check --long ./crushcalc
CHECK_page = /usr/bin/python3 tests/page/check ./crushcalc
CHECK_package = python3 package/check build/package/*_amd64.deb $(BEFORE)
CHECK_sqlite = python3 tests/files/with_sqlite3 ./crushcalc
CHECK_refused = python3 tests/allocations/check ./crushcalc 0
CHECK_fuzz = python3 tests/fuzz/check ./crushcalc --inputs $(INPUTS) --seed $(SEED)
define CHECK_stops
python3 tests/stops/check ./crushcalc --logs $(SECONDS) $(SEED)
python3 tests/stops/sessions ./crushcalc $(HISTORIES) $(SEED)
endef
CHECK_kill = python3 tests/stops/check ./crushcalc $(KILLS) $(SEED)
# rt try compiles with AddressSanitizer, and with checks of indexes and numbers
define CHECK_sanitized
rm -rf build/sanitized && mkdir -p build/sanitized
python3 tests/fuzz/check ./crushcalc --inputs 20000 --seed $(SEED) --cases build/sanitized
cd crates/crushcalc && $(RT) try --cases ../../build/sanitized -- script
endef

CHECKS = ceph cluster manager prometheus http machines page package sqlite refused fuzz sanitized stops kill
ceph-check: build/crush_bench
package-check: package
$(CHECKS:=-check): %-check: build
	@sh tools/need $(NEEDS_$*)
	@$(subst $(newline), && ,$(CHECK_$*))

only-tested: tools
	@RT='$(RT)' python3 tests/only_tested/check --try

# the page's files are served as they stand in web/, and d3 from where libjs-d3 puts it
D3 = /usr/share/javascript/d3/d3.min.js

page: build
	@sh tools/need nginx $(D3)=libjs-d3
	@python3 tools/page ./crushcalc --port $(PORT)

bench: build build/crush_bench
	@sh bench/all

# counts are the same on each machine of a kind, whatever else runs there
instructions: build build/crush_bench
	@sh tools/need valgrind
	@python3 bench/instructions ./crushcalc build/crush_bench

# installs what make bench compares with
bench-deps:
	@sh tools/need $(CEPH)

clean:
	@echo 'Removing ./crushcalc, build/ and crates/*/out; the next build proves everything anew.'
	@rm -rf crushcalc build crates/*/out tools/crushplan_parts/__pycache__

.PHONY: any build help tools parts try cases run test test-all wrong form install package rebuild-check release dist serve only-tested page bench instructions bench-deps clean $(CHECKS:=-check)
