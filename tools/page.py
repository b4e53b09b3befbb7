#!/usr/bin/env python3
"""Makes the head and the tail of a run's page, which the crate page_text writes, from page/page.html.

    tools/page.py            writes crates/page_text/src/frame.rt anew
    tools/page.py --check    says whether that file is what it would write

The page has one mark, @RUN@, where the run stands as JSON: what is before it is the head, what is behind it the tail. They stand in Rust's raw
strings, so the page may not have a quotation mark before a number sign, and it is ASCII."""

import os
import sys

TOP = os.path.dirname(os.path.dirname(os.path.abspath(__file__)))
PAGE = os.path.join(TOP, "page", "page.html")
FRAME = os.path.join(TOP, "crates", "page_text", "src", "frame.rt")
MARK = "@RUN@"
TEXT = """// What stands in every page before and behind its run. Made by tools/page.py of page/page.html: change that.

/// What stands before the run.
pub const HEAD: &str = r#"{head}"#;

/// What stands behind it.
pub const TAIL: &str = r#"{tail}"#;
"""


def frame_of(page):
    """The text of the crate's constants."""
    if not page.isascii() or '"#' in page or page.count(MARK) != 1:
        sys.exit(f"page/page.html: it has to be ASCII, with no quotation mark before a number sign, and {MARK} has to stand in it once")
    long = [number for number, line in enumerate(page.split("\n"), 1) if len(line) > 160]
    if long:
        sys.exit(f"page/page.html: lines of more than 160 characters: {long}")
    head, tail = page.split(MARK)
    return TEXT.format(head=head, tail=tail)


def main():
    with open(PAGE, encoding="utf-8") as file:
        made = frame_of(file.read())
    if sys.argv[1:] == ["--check"]:
        with open(FRAME, encoding="utf-8") as file:
            if file.read() != made:
                sys.exit("crates/page_text/src/frame.rt is not made of page/page.html as it stands: run tools/page.py")
        print("page: the crate's constants are the page as it stands")
        return
    if sys.argv[1:]:
        sys.exit(__doc__)
    with open(FRAME, "w", encoding="utf-8") as file:
        file.write(made)


if __name__ == "__main__":
    main()
