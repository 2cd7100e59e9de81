"""The guides, figures, examples and the crate for Rust, as the package npss-doc and the tarball have them."""

from pathlib import Path

ROOT = Path(__file__).resolve().parent.parent
# What stands where it does in the sources, so that pages and figures find one another.
PAGES = ("README.md", "CHANGELOG.md", "CONTRIBUTING.md", "SECURITY.md", "bench/README.md", "bench/GATE.md", "docs/*.md", "docs/*.svg",
         "docs/figures/*.svg", "docs/figures/*.png", "examples/*")
# The crate for Rust, which stands in a folder of its own.
RUST, CRATE = ROOT / "bindings" / "rust", ("Cargo.toml", "Cargo.lock", "build.rs", "src/*.rs", "examples/*.rs")
# The completions of the shells, and where each shell looks for them below share.
COMPLETIONS = {"bash": "bash-completion/completions", "zsh": "zsh/site-functions", "fish": "fish/vendor_completions.d"}


def documents():
    """Each file, by the name that it gets."""
    found = {str(path.relative_to(ROOT)): path for pattern in PAGES for path in sorted(ROOT.glob(pattern)) if path.is_file()}
    found |= {f"rust/{path.relative_to(RUST)}": path for pattern in CRATE for path in sorted(RUST.glob(pattern))}
    return found


def completions():
    """Each completion of a program that the tarball has, by the name that it gets below share."""
    return {f"{COMPLETIONS[shell]}/{path.name}": path for shell in COMPLETIONS for path in sorted((ROOT / "packaging" / "completions" / shell).iterdir())
            if "registry" not in path.name}
