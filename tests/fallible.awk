# Prints each public call whose clauses or documentation name `OutOfMemory`: `Type::call`, `call` outside a type, or
# the head of an `impl` of a trait. The documentation of a call that never allocates says "Does not allocate.", with no
# condition after it. Prints the derived `Clone` of a type that has no parameter and is not `Copy` too.
# With `words`, the calls alone whose documentation has them.
# Calls of arrays of byte strings alone, and of texts alone, have the names of the aliases: `BinaryArray::from_slice`.
# Comparisons of byte strings, of texts and of booleans have the names of those of numbers: each is printed after its
# module, as `binary::eq`.
FNR == 1 {
    module = FILENAME ~ /\/comparison\/[a-z]+\.rt$/ ? FILENAME : ""
    sub(/.*\//, "", module)
    sub(/\.rt$/, "::", module)
}
/^ *}/ { said = "" }
{
    line = $0
    sub(/^ *\/\/\/ ?/, " ", line)
    said = said line
}
/^impl/ {
    owner = $0
    gsub(/'[a-z],? ?/, "", owner)
    sub(/^impl(<([^<>]|<[^<>]*>)*>)? /, "", owner)
    sub(/ *\{$/, "", owner)
    type = owner
    sub(/GenericByteArray<BinaryType,/, "BinaryArray<", type)
    sub(/GenericByteArray<Utf8Type,/, "Utf8Array<", type)
    sub(/<.*/, "", type)
}
/^}/ { owner = "" }
/^#\[derive\(/ { cloned = /Clone/ && !/Copy/ && words == "" }
cloned && /^pub (struct|enum) [A-Za-z]+ / { print "Clone for " $3 }
/^pub (struct|enum) / { cloned = 0 }
/^ *(pub(\(crate\))? )?fn / {
    public = $1 == "pub" || owner ~ / for /
    call = $0
    sub(/^ *(pub )?fn /, "", call)
    sub(/[<(].*/, "", call)
    call = owner == "" ? module call : owner ~ / for / ? owner : type "::" call
}
/\{$/ && call != "" {
    if (public && said ~ /OutOfMemory|AllocError/ && said !~ /Does not allocate[.:]/ && said ~ words)
        print call
    call = said = ""
}
