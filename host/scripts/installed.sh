# For install and uninstall: what is installed, below the prefix, and where that is.
# shellcheck shell=bash disable=SC2034
# Directories, outer ones first.
directories="bin include lib lib/pkgconfig share share/man share/man/man1 share/man/man3"
files="bin/bench bin/reader include/ssp.h include/ssp_names.h lib/libssp.a lib/pkgconfig/ssp.pc
    share/man/man1/bench.1 share/man/man1/reader.1 share/man/man3/ssp.3"

# absolute PATH: as it is where it begins with / or is empty, else in the current directory; without a last /.
absolute() {
    case $1 in
        '' | /*) printf '%s\n' "${1%/}" ;;
        *) printf '%s/%s\n' "$PWD" "${1%/}" ;;
    esac
}

prefix=$(absolute "${PREFIX-/usr/local}")
place=$(absolute "${DESTDIR-}")$prefix
# The directories that an installation made stand in ssp.pc, in a line for uninstall: those that were there before stay.
record=$place/lib/pkgconfig/ssp.pc
made_before() { [ ! -f "$record" ] || sed -n 's/^# made: //p' "$record"; }
