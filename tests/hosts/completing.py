"""What the shells complete, by the completions that a package installs."""

import os
import pty
import re
import select
import shutil
import time

from harness import output_of

# What is typed, and what completes it.
ROWS = (("npss", "npss k", "key"), ("npss", "npss key --form nfkc --c", "--check-under"), ("npss_lines", "npss_lines --form nfk", "nfkc nfkd"),
        ("npss_lines", "npss_lines --pr", "--progress"), ("npss_caseless", "npss_caseless co", "compare"),
        ("npss_caseless", "npss_caseless key --ch", "--check-under"), ("npss-registry", "npss-registry cl", "claim"),
        ("npss-registry", "npss-registry init --cas", "--caseless"),
        ("npss-registry", "npss-registry relog --fr", "--from"), ("npss-registry", "npss-registry trim --pa", "--patience"))
# Where each shell looks, below the root.
BASH, ZSH, FISH = "usr/share/bash-completion/completions", "usr/share/zsh/vendor-completions", "usr/share/fish/vendor_completions.d"
# Seconds for zsh to answer.
PATIENCE = 20


def by_bash(tally, root, name, typed):
    words = " ".join(f"'{word}'" for word in typed.split())
    script = (f'source "$0"; COMP_WORDS=({words}); COMP_CWORD=$((${{#COMP_WORDS[@]}} - 1)); _{name.replace("-", "_")}; '
              'echo "${COMPREPLY[@]}"')
    return output_of(tally, f"bash completes {typed!r}", ["bash", "-c", script, root.folder / BASH / name]).split()


def by_fish(tally, root, name, typed):
    script = f"source {root.folder / FISH}/{name}.fish; complete -C '{typed}'"
    return [line.partition("\t")[0] for line in output_of(tally, f"fish completes {typed!r}", ["fish", "--no-config", "-c", script]).splitlines()]


def by_zsh(_, root, name, typed):
    """zsh completes at a terminal alone: there the words are typed, and a tab behind them."""
    child, terminal = pty.fork()
    if child == 0:
        os.execvpe("zsh", ["zsh", "-f", "-i"], {"PATH": os.environ["PATH"], "TERM": "dumb", "LC_ALL": "C.UTF-8", "HOME": "/nonexistent"})
    lines = (f"fpath=({root.folder / ZSH} $fpath); autoload -Uz compinit; compinit -D -u; setopt noautomenu; PROMPT=; unsetopt zle_bracketed_paste",
             f"_shown() {{ print -r -- \"<$BUFFER>\"; BUFFER=; zle accept-line; }}; zle -N _shown; bindkey '^X' _shown; print READ''Y")
    try:
        for line in lines:
            os.write(terminal, f"{line}\n".encode())
        read_until(terminal, "READY")
        os.write(terminal, f"{typed}\t\x18".encode())
        shown = read_until(terminal, r"<[^>]*>")
    finally:
        os.close(terminal)
        os.kill(child, 9)
        os.waitpid(child, 0)
    found = re.findall(r"<([^>]*)>", shown)
    return found[-1].split()[-1:] if found else []


def read_until(terminal, sign):
    """What a terminal shows up to a sign, or for as long as patience lasts."""
    shown, until = "", time.monotonic() + PATIENCE
    while not re.search(sign, shown) and time.monotonic() < until:
        if select.select([terminal], [], [], 0.2)[0]:
            shown += os.read(terminal, 65536).decode(errors="replace")
    return shown


def check_completion(tally, root):
    """What bash, zsh and fish complete by what is installed. Of several words zsh types what they have in common."""
    for shell, by in (("bash", by_bash), ("zsh", by_zsh), ("fish", by_fish)):
        if not shutil.which(shell):
            print(f"skipped: completions of {shell}: {shell} not found")
            continue
        for name, typed, wanted in ROWS:
            words = [os.path.commonprefix(wanted.split())] if shell == "zsh" else sorted(wanted.split())
            tally.same(f"what completes {typed!r} in {shell}", sorted(by(tally, root, name, typed)), words)
