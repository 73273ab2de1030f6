# Writes the layout of the structs that C sees, as the crate proves it, as macros for a C compiler to hold the header against:
#
#     CMWQ_SIZE_<struct>                  its size, from a `prove!(size_of::<..>() == ..)`
#     CMWQ_FIELDS_<struct>(lies, type)    lies(type, field, offset) for each field. The offsets are those of a contract (`FieldsLieAt`), which
#                                         has them in the order in which the struct's fields are written, and the names stand with the struct
#
# Reads the files with the structs, and then the one with the contract.

match($0, /size_of::<[A-Za-z]+>\(\) == [0-9]+/) {
    split(substr($0, RSTART + 10, RLENGTH - 10), size, />\(\) == /)
    print "#define CMWQ_SIZE_" size[1], size[2]
}

/^pub struct / { struct = $3 }
/^}/ { struct = "" }

struct && /^    (pub )?[a-z_]+: / {
    sub(/^ *(pub )?/, "")
    sub(/:.*/, "")
    names[struct, ++count[struct]] = $0
}

/ensures .* FieldsLieAt / {
    sub(/.* FieldsLieAt /, "")
    told = $1
    sub(/^[A-Za-z]+ /, "")
    words = split($0, offsets, /[^0-9]+/)
    fields = ""
    place = 0
    for (word = 1; word <= words; word++)
        if (offsets[word] != "")
            fields = fields " lies(type, " names[told, ++place] ", " offsets[word] ")"
    if (place == 0 || place != count[told]) {
        print "layout.awk: " told " has " count[told] + 0 " fields, and " place " are told" > "/dev/stderr"
        exit 1
    }
    print "#define CMWQ_FIELDS_" told "(lies, type)" fields
}
