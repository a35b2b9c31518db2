# `demo`, `test` and `bench` need the command `rt` of the Rattle kit; `demo` and `bench` need python3 too.
.PHONY: demo test bench session install uninstall

PREFIX = /usr/local
program = crates/nccloud/out/nccloud
share = $(DESTDIR)$(PREFIX)/share
installed = $(DESTDIR)$(PREFIX)/bin/nccloud $(share)/man/man1/nccloud.1 \
    $(share)/bash-completion/completions/nccloud $(share)/zsh/site-functions/_nccloud \
    $(share)/fish/vendor_completions.d/nccloud.fish

demo:
	@bash bench/demo.sh

test:
	bash .ci/run

bench:
	@bash bench/put.sh
	@[ -z "$(BEFORE)" ] || bash bench/rounds.sh "$(BEFORE)" $(program)
	@bash bench/kernels.sh

session:
	@bash bench/session.sh

install:
	@test -x $(program) || { echo "$(program) isn't there: make demo builds it" >&2; exit 1; }
	install -D -m 755 $(program) $(DESTDIR)$(PREFIX)/bin/nccloud
	install -D -m 644 man/nccloud.1 $(share)/man/man1/nccloud.1
	install -D -m 644 completions/nccloud.bash $(share)/bash-completion/completions/nccloud
	install -D -m 644 completions/nccloud.zsh $(share)/zsh/site-functions/_nccloud
	install -D -m 644 completions/nccloud.fish $(share)/fish/vendor_completions.d/nccloud.fish

uninstall:
	rm -f $(installed)
