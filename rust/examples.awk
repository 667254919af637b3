# Makes a test of each example in the package's documentation, so that they run where rustdoc cannot run them: of those in comments
# of .rs files, and of those marked as rust in .md files, which may use `?` without an end that says so.
FILENAME ~ /\.rs$/ { sub(/^ *\/\/[\/!] ?/, "") || (inside = 0) }
/^```/ && (inside || FILENAME ~ /\.rs$/ || $0 == "```rust") {
    inside = !inside
    if (inside) printf "#[test]\nfn %s_%d() {\n    let answered = (|| {\n", file(), ++examples
    else print (FILENAME ~ /\.md$/ ? "        Ok::<(), strandroost::Refusal>(())\n" : "") "    })();\n    assert!(!format!(\"{answered:?}\").starts_with(\"Err\"));\n}\n"
    next
}
inside { sub(/^# /, ""); print "        " $0 }
function file(name) { name = FILENAME; gsub(/.*\/|\.(rs|md)$/, "", name); return tolower(name) }
