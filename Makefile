.PHONY: demo programs test

# Proves what the programs rest on and builds them: each stays as out/NAME in its crate's folder once it has run.
programs:
	for name in sheet survey certify; do \
		(cd crates/$$name && rm -f out/$$name && { rt run < /dev/null > /dev/null 2>&1; test -x out/$$name; }) || exit 1; \
	done

# Works through one sheet.
demo: programs
	mkdir -p target/demo
	cd target/demo && ../../crates/sheet/out/sheet pack sheet.rec < ../../examples/sheet.txt
	cmp target/demo/sheet.rec examples/sheet.rec
	cd target/demo && ../../crates/sheet/out/sheet show sheet.rec
	cd target/demo && ../../crates/sheet/out/sheet show sheet.rec --beam 5 20 1 --step 10
	cd target/demo && ../../crates/survey/out/survey < ../../examples/commands.txt
	cd target/demo && ../../crates/certify/out/certify 3

test:
	.ci/run
