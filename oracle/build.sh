# Sourced by compare, hosts, bench, counts, record, fuzz, tables and variants, by ./install, bindings/rust/check and the scripts of
# examples/, from the repository's root: how the comparison and what it links is built.

# Ends the script where a tool is missing that it cannot do without.
need() {
    for tool in "$@"; do
        command -v "$tool" >/dev/null && continue
        echo "Error: $tool is not installed." >&2
        exit 1
    done
}

# Sets `original` to the folder of the original program, and fails where it is not there. A relative HEDGEMALLOW_ORIGINAL is meant
# from the folder $1, where the caller stands.
locate_original() {
    original=${HEDGEMALLOW_ORIGINAL:-$PWD/../shared/docs/src}
    case $original in
    /*) ;;
    *) original=$1/$original ;;
    esac
    [ -f "$original/src/postprocess/pipeline.rs" ]
}

# The same, and ends the script where it is not there.
need_original() {
    locate_original "$1" && return
    cat >&2 <<END
Error: the original program is missing: there is no file $original/src/postprocess/pipeline.rs.
Set HEDGEMALLOW_ORIGINAL to a checkout of rust-nes-emu, the folder that holds src/postprocess.
END
    exit 1
}

# The same for what goes on without it: `original` is then empty. With CI=true it has to be there.
find_original() {
    locate_original "$1" && return
    if [ "${CI:-}" = true ]; then
        echo "With CI=true the part against the original program is not skipped." >&2
        need_original "$1"
    fi
    cat <<END
Skipped: the part against the original program, since there is no $original/src/postprocess/pipeline.rs.
To run it, set HEDGEMALLOW_ORIGINAL to a checkout of rust-nes-emu, the folder that holds src/postprocess.
END
    original=
}

# A module for each file of passes in the folder $1, compiled where it lies.
modules() {
    echo "// Written by oracle/build.sh."
    for file in "$1"/*.rs; do
        name=${file##*/}
        name=${name%.rs}
        # The original has no mod.rs: this file stands for it.
        [ "$name" = mod ] && continue
        printf '#[path = r##"%s"##]\npub mod %s;\n' "$file" "$name"
    done
}

# Where a copy of the original counts. Six passes have final clamps, one for each of three channels; a blur adds up weights in one place
# for each of its directions.
counting_places() {
    for pass in auto_gradient bloom color_correction lut ntsc persistence; do
        echo " 3 $pass.rs:crate::reports::clamp("
        case $pass in
        bloom) echo " 2 $pass.rs:crate::reports::sample(" ;;
        ntsc) echo " 1 $pass.rs:crate::reports::sample(" ;;
        esac
    done
}

# Writes a copy of the original's passes to target/oracle/counted which counts by oracle/src/reports.rs: each final clamp of a channel is
# the one there, and the weight of each sample goes through there before it is added.
copy_counting() {
    mkdir -p target/oracle/counted || return 1
    for file in "$original"/src/postprocess/*.rs; do
        sed -E -e 's/\b(final_[rgb]|[rgb]|red|green|blue)\.clamp\(0\.0, (1|255)\.0\)/crate::reports::clamp(\1, \2.0)/g' \
            -e 's/\bweight_sum \+= weight;/weight_sum += crate::reports::sample(weight);/g' "$file" \
            >"target/oracle/counted/${file##*/}" || return 1
    done
    counting=$(cd target/oracle/counted && grep -oE 'crate::reports::(clamp|sample)\(' -- *.rs | sort | uniq -c | tr -s ' ')
    asked=$(counting_places)
    [ "$counting" = "$asked" ] && return
    printf 'Error: the final clamps or the samples of the original are not where they were. Found:\n%s\nasked:\n%s\n' "$counting" "$asked" >&2
    return 1
}

# The original's passes and the copy, as the program compiles them.
write_modules() {
    modules "$original/src/postprocess" >target/oracle/original.rs || return 1
    copy_counting || return 1
    modules "$PWD/target/oracle/counted" >target/oracle/counted.rs
}

# Builds the named programs and static libraries by ./build, which says what went wrong.
build_crates() {
    mkdir -p target/oracle || return 1
    if ! ./build "$@" >target/oracle/build.log 2>&1; then
        echo "Not built. \`./build $*\` said:" >&2
        cat target/oracle/build.log >&2
        return 1
    fi
}

# Compiles the comparison program with the two libraries. The arguments say what of it, and where to.
compile() {
    rustc -O --edition 2021 --check-cfg 'cfg(with_original, fuzz, test)' -L native=target/staticlib "$@" oracle/src/main.rs
}

# Writes the libraries `probe` and `bridge`, and compiles the program with them and with the original, if there is one.
build() {
    need rt
    build_crates probe bridge || return 1
    if [ -n "$original" ]; then
        write_modules || return 1
    fi
    compile ${original:+--cfg with_original} -o target/oracle/compare
}
