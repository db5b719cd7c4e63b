#!/usr/bin/env python3
"""Writes a crate as plain Rust: its contracts and proofs' ghosts stripped, its library's names those of `shim`."""
import os
import re
import sys


def skip(text, at):
    """The place behind a comment, a string or a character that begins here, else None."""
    if text.startswith("//", at):
        end = text.find("\n", at)
        return len(text) if end < 0 else end
    if text[at] == '"':
        at += 1
        while text[at] != '"':
            at += 2 if text[at] == "\\" else 1
        return at + 1
    char = re.match(r"b?'(\\.[^']*|[^'\\])'", text[at:])
    return at + char.end() if char else None


def closed(text, at):
    """The place behind the bracket that closes the one that opens here."""
    depth = 0
    while True:
        behind = skip(text, at)
        if behind:
            at = behind
            continue
        depth += {"{": 1, "(": 1, "[": 1, "}": -1, ")": -1, "]": -1}.get(text[at], 0)
        at += 1
        if depth == 0:
            return at


def ghost_end(text, at):
    """The place behind a ghost item: its ';' or ','."""
    while text[at] not in ";,":
        at = closed(text, at) if text[at] in "{([" else at + 1
    return at + 1


def stripped(text):
    """The text without its ghost items, its clauses and its models."""
    out, at, fresh = [], 0, True
    while at < len(text):
        behind = skip(text, at)
        if behind:
            out.append(text[at:behind])
            at, fresh = behind, False
            continue
        if fresh:
            rest = text[at:]
            if re.match(r"(pub )?ghost ", rest):
                at = ghost_end(text, at)
                continue
            clause = re.match(r"(requires|ensures\*?)(\s+\w+)?\s*\{", rest)
            if clause:
                at = closed(text, at + clause.end() - 1)
                continue
            if re.match(r"impl\b[^{;]*\b(Model|Drop) for\b", rest):
                at = closed(text, text.index("{", at))
                continue
        char = text[at]
        out.append(char)
        fresh = char == "\n" or (fresh and char == " ")
        at += 1
    return "".join(out)


def plain(text):
    """The text as Rust has it."""
    text = re.sub(r"^( *)//[/!]", r"\1//", stripped(text), flags=re.M)
    text = re.sub(r"#!?\[tactic\([^\]]*\]\n", "", text)
    text = re.sub(r"#\[derive\(([^)]*)\)\]", lambda m: derived(m.group(1)), text)
    text = re.sub(r"use std::marker::Model;\n", "", text)
    text = text.replace("{Model, PhantomData}", "PhantomData")
    text = re.sub(r"^(impl\b[^{]*?) as \w+ \{", r"\1 {", text, flags=re.M)
    text = text.replace(".collect(alloc)", ".collect_in(alloc)").replace(".to_vec(alloc)", ".to_vec_in(alloc)")
    written = r"<W: (fmt::)?Write>\(&self, (\w+): &mut (fmt::)?Formatter<W>\)"
    text = re.sub(written, r"(&self, \2: &mut shim::fmt::Formatter<'_>)", text)
    text = re.sub(r"vec!\[in (\w+); ([^;\]]*); ([^;\]]*)\]", r"Vec::from_elem(\1, \2, \3)", text)
    text = re.sub(r"fn clone\(&self\) -> Result<Self, AllocError> \{\s*Ok\(\*self\)", "fn clone(&self) -> Self { *self", text)
    text = re.sub(r"fn clone\(&self\) -> Result<Self, AllocError> \{\s*Ok\((\w+ \{.*?\})\)\s*\}", r"fn clone(&self) -> Self { \1 }", text, flags=re.S)
    text = text.replace("BuildHasherDefault::new()", "BuildHasherDefault::default()")
    text = re.sub(r"format!\(in \w+; ([^)]*)\)", r"shim::said(format!(\1))", text)
    text = re.sub(r": Drop\b(?=[,>])", "", text)
    text = text.replace(" + Drop", "").replace("<T: Drop>", "<T>").replace("use thiserror::Error;\n", "")
    text = re.sub(r"\bstd::", "shim::", text)
    text = re.sub(r"\buse (byteorder|crossbeam_channel|indexmap|left_right|crossbeam_utils|atomic_table)::", r"use shim::\1::", text)
    return "#[allow(unused_imports)]\nuse shim::prelude::*;\n" + text


def derived(names):
    """A derive without what Rust has by itself or the bench does without."""
    kept = [it.strip() for it in names.split(",") if it.strip() not in ("Drop", "Error")]
    return f"#[derive({', '.join(kept)})]" if kept else ""


def main(source, to):
    """Writes each file of a crate's sources."""
    os.makedirs(to, exist_ok=True)
    for folder, _, files in os.walk(source):
        for name in files:
            if name.endswith(".rt"):
                path = os.path.join(folder, name)
                under = os.path.relpath(path, source)[:-3] + ".rs"
                os.makedirs(os.path.dirname(os.path.join(to, under)), exist_ok=True)
                with open(path, encoding="utf8") as file:
                    made = plain(file.read())
                with open(os.path.join(to, under), "w", encoding="utf8") as file:
                    file.write(made)


main(*sys.argv[1:])
