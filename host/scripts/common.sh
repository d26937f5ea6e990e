# For the scripts of host/, from the repository's root: where things are built, what runs an x86-64 program here, the packets
# in what bench printed (an accepted poll's answer is 00 and 126 bytes, and no other answer is as long), and proving with a line
# for each crate.
# shellcheck shell=bash disable=SC2034
built=target/host
# bench and reader are linked dynamically: elsewhere their loader is that of the C library which `tools` installs with the compiler.
if [ "$(uname -m)" = x86_64 ]; then runner=; else runner=qemu-x86_64; export QEMU_LD_PREFIX=/usr/x86_64-linux-gnu; fi

polled() { sed -n 's/^00\(.\{252\}\)$/\1/p' "$@"; }

# crates_of [NAME...]: how many crates of crates.txt these are, with all that they need; without a name all of them.
crates_of() {
    awk -v names="$*" '
        function want(name, i, n, word) {
            if (!(name in needs) || name in wanted) return
            wanted[name]; count++
            n = split(needs[name], word, " ")
            for (i = 1; i <= n; i++) want(word[i])
        }
        /^[^#:]+:/ { name = $1; sub(/:$/, "", name); line = $0; sub(/^[^:]*:/, "", line); needs[name] = line; listed++ }
        END {
            n = split(names, word, " ")
            for (i = 1; i <= n; i++) want(word[i])
            print n ? count : listed
        }' crates.txt
}

# shown COMMAND...: runs rt, shows a line for each crate as it is proved, and where it fails the end of all that it printed.
# The lines are read one by one, so that they are seen at once in a pipe too. One that names a crate comes before its verdict; 'rt all'
# says the same again in a line of its own.
shown() {
    local line crate='' all=
    mkdir -p target
    "$@" 2>&1 </dev/null | tee target/proving.log | {
        while IFS= read -r line; do
            case $line in
                'crate '*': modules'*) crate=${line#crate }; crate=${crate%%:*} ;;
                '== '*) all=1 ;;
                *': ok') printf '  %s\n' "${line%: ok}" ;;
                'logic=proved functions='*)
                    [ -z "$all" ] || continue
                    line=${line#logic=proved functions=}
                    printf '  %s: %d functions\n' "$crate" "${line%% *}" ;;
            esac
        done
    }
    [ "${PIPESTATUS[0]}" -eq 0 ] || { tail -n 30 target/proving.log; echo "failed: ${*##*/}"; return 1; }
}

# proving NAME...: proves these crates with all that they need, and puts what is made of each where the tests and the installation
# look for it: the C library of ssp_c, as libssp.a, into target/staticlib, a program into target/bin.
proving() {
    local name
    echo "  $(crates_of "$@") crates; those unchanged since they were proved are not proved again. From nothing it takes long."
    for name in "$@"; do
        case $name in
            ssp_c)
                mkdir -p target/staticlib
                shown env -C crates/ssp_c rt lib && cp crates/ssp_c/out/libssp_c.a target/staticlib/libssp.a || return 1 ;;
            *)
                mkdir -p target/bin
                shown env -C "crates/$name" rt run && cp "crates/$name/out/$name" target/bin/ || return 1 ;;
        esac
    done
}
