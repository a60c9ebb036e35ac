"""What the checks run beside this repository, by the Debian packages that have it, and which of these
are not here."""

import glob
import shutil

# A package, what of it has to be here (a command, or files by a pattern), and what is left out without
# it.
PACKAGES = [
    ("64tass", "64tass", "ROMs, and listings of 64tass"),
    ("acme", "acme", "reports of ACME"),
    ("binaryen", "wasm-opt", "whether the playground's module is what wasm-opt makes"),
    ("cc65", "cl65", "programs of ca65 and cc65"),
    ("chromium", "chromium", "pages and the playground in Chromium"),
    ("elpa-dap-mode", "/usr/share/emacs/site-lisp/elpa/dap-mode-*", "Emacs with the debugger"),
    ("elpa-lsp-mode", "/usr/share/emacs/site-lisp/elpa/lsp-mode-*", "Emacs with the server"),
    ("emacs-nox", "emacs", "Emacs"),
    ("firefox-esr", "firefox-esr|firefox", "the playground in Firefox"),
    ("gcc", "cc|gcc|clang", "calls that fail, and programs in C"),
    ("git", "git", "the example project"),
    ("libtree-sitter-dev", "/usr/include/tree_sitter/api.h", "the colours of Helix"),
    ("make", "make", "the example project"),
    ("musl-tools", "musl-gcc", "the library by musl, in a release"),
    ("neovim", "nvim", "Neovim"),
    ("nodejs", "node", "pages, the playground and the extension for VS Code in Node.js"),
    ("pkg-config", "pkg-config", "the library by pkg-config"),
    ("python3-pydevd", "/usr/lib/python3/dist-packages/_pydevd_bundle", "the classes of dap's schema"),
    ("rlwrap", "rlwrap", "lines of mon that are edited"),
    ("srecord", "srec_cat", "the comparison with srec_cat"),
    ("tmux", "tmux", "screens as a terminal shows them"),
    ("valgrind", "valgrind", "the library for C under valgrind"),
    ("vim", "vim", "Vim"),
    ("webkit2gtk-driver", "WebKitWebDriver", "the playground in WebKit"),
    ("xvfb", "Xvfb", "the playground in WebKit"),
]


def is_here(sign):
    """Whether one of these commands is here, or a file."""
    if sign.startswith("/"):
        return bool(glob.glob(sign))
    return any(map(shutil.which, sign.split("|")))


def lines():
    """What is left out since it is not here, and how to install it; no line where all is here."""
    rows = [(name, what) for name, sign, what in PACKAGES if not is_here(sign)]
    if not rows:
        return []
    told = "; ".join(f"{what} ({name})" for name, what in rows)
    names = " ".join(name for name, _ in rows)
    return [f"left out, since it is not installed here: {told}",
            f"to install it: apt-get install --no-install-recommends {names}"]
