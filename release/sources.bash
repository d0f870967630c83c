# The files that the program hipe_top is proved and built from, and their digest. To be sourced, with `here` set to the top of the
# repository; `hipe`, `release/take`, `release/check`
# and `.ci/release` do so.

release=$here/release/hipe
recorded=$here/release/sources.sha256
linked=$here/crates/hipe_top/out/hipe_top

# The crates that hipe_top is made of, itself last: those of the repository that it stands on, each behind those on which it stands.
crates() {
    awk '
        { sub(/#.*/, "") }
        split($0, sides, ":") == 2 { split(sides[1], head, " "); deps[head[1]] = sides[2] }
        function visit(name,    i, n, names) {
            if (!(name in deps) || name in seen) return
            seen[name] = 1
            n = split(deps[name], names, " ")
            for (i = 1; i <= n; i++) visit(names[i])
            print name
        }
        END { visit("hipe_top") }
    ' "$here/crates.txt"
}

# The crates of the repository on which a crate stands by its line.
below() {
    awk -v crate="$1" '
        { sub(/#.*/, "") }
        split($0, sides, ":") == 2 { split(sides[1], head, " "); names[head[1]] = sides[2] }
        END { n = split(names[crate], deps, " "); for (i = 1; i <= n; i++) if (deps[i] in names) print deps[i] }
    ' "$here/crates.txt"
}

# The files and folders of the sources, below the top of the repository: crates.txt, and of each crate the code, the definitions
# and the proofs.
sources() {
    echo crates.txt
    local name part
    while read -r name; do
        for part in src specs proofs; do
            [ -e "$here/crates/$name/$part" ] && echo "crates/$name/$part"
        done
    done < <(crates)
}

# The kit's version: that of the toolchain that is here, or, where there is none, the one that the release was built with.
kit() {
    if command -v rt >/dev/null; then
        rt version
    else
        cut -d ' ' -f 3- "$recorded" 2>/dev/null
    fi
}

# The digest of the sources and the kit's version, one SHA-256 in hexadecimal. The order of the files doesn't go by the locale.
digest() {
    {
        kit
        (cd -- "$here" && sources | tr '\n' '\0' | xargs -0 -I '{}' find '{}' -type f -print0 | LC_ALL=C sort -z | xargs -0 sha256sum)
    } | sha256sum | cut -d ' ' -f 1
}

# The digest of the sources that the stored program was built from, or nothing where none is stored, or it isn't to be looked at.
digest_of_release() {
    [ "${HIPE_STORED:-}" != no ] && [ -x "$release" ] && cut -d ' ' -f 1 "$recorded" 2>/dev/null
}

# Is no source newer than this file? A folder is as new as the last file that came to it or left it.
is_as_new() {
    [ -e "$1" ] || return 1
    local paths
    mapfile -t paths < <(sources)
    [ -z "$(cd -- "$here" && find "${paths[@]}" -newer "$1" -print -quit)" ]
}
