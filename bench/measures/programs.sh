# The programs of bench/ in Rattle, as crates of a copy of the checkout. A script sets $top, the checkout, and reads this by `.`; it is for bash.
#
# The merge gate refuses a file of Rattle outside crates/, so the files end in .rt.txt here.
# shellcheck shell=bash disable=SC2154

# Copies the two programs beside the crates of the copy at $1.
add_programs() {
    local coders=$1/crates/p25_bench units=$1/crates/p25_bench_units file
    mkdir -p -- "$coders/src" "$units/src" "$units/proofs/main"
    for file in "$top"/bench/measures/coders/*.rt.txt; do
        cp -- "$file" "$coders/src/$(basename -- "$file" .txt)"
    done
    for file in "$top"/bench/measures/units/*.rt.txt; do
        cp -- "$file" "$units/src/$(basename -- "$file" .txt)"
    done
    cp -- "$top/bench/measures/units/main.Invariants.antt.txt" "$units/proofs/main/Invariants.antt"
    cat >>"$1/crates.txt" <<'END'
p25_bench: p25_bits p25_code p25_gf64 p25_reed_solomon p25_bch_nid p25_golay p25_hamming p25_crc p25_status p25_trellis p25_soft
p25_bench_units: p25_bits p25_units p25_packet_blocks p25_voice_units p25_vectors
END
}
