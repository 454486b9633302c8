#!/bin/sh
# Decodes drawn lines that another coder coded (aec, of Debian's libaec-tools; without it nothing is tried), and
# compares the samples. The lines are drawn by reference/lines.py, whose own codings aec decodes as well. Then codes a
# drawn line, and compares the bytes with those of reference/coder.py: aec has to decode them to the samples, and to
# have no fewer of its own.
# Usage: trials/lines.sh. Needs rt and python3.
set -e
. "$(dirname "$0")/lib.sh"
needs aec
scratch_folder
(cd "$top/crates/lr_bench" && rt run -- none 1 > "$scratch/build.log" 2>&1) || { cat "$scratch/build.log"; exit 1; }
draw="python3 $top/reference/lines.py"
failed=0
tried=0
for bits in 5 6 8 9 10 12 14 16; do
    for block in 8 16 32 64; do
        for columns in 8 100 1000 2049; do
            start=$((bits * block + columns))
            interval=$(((columns + block - 1) / block))
            $draw filled "$bits" "$block" "$columns" 5 "$start" > "$scratch/filled"
            $draw samples "$bits" "$block" "$columns" 5 "$start" > "$scratch/samples"
            $draw coded "$bits" "$block" "$columns" 5 "$start" > "$scratch/coded"
            aec -m -n "$bits" -j "$block" -r "$interval" "$scratch/filled" "$scratch/theirs"
            "$top/crates/lr_bench/out/lr_bench" samples "$bits" "$block" "$columns" 5 1 < "$scratch/theirs" > "$scratch/ours"
            aec -d -m -n "$bits" -j "$block" -r "$interval" "$scratch/coded" "$scratch/back"
            size=$(wc -c < "$scratch/filled")
            head -c "$size" "$scratch/back" > "$scratch/decoded"
            $draw filled "$bits" "$block" "$columns" 1 "$start" > "$scratch/filled_line"
            $draw samples "$bits" "$block" "$columns" 1 "$start" > "$scratch/line"
            "$top/crates/lr_bench/out/lr_bench" coded "$bits" "$block" "$columns" 1 1 < "$scratch/line" > "$scratch/coded_line"
            python3 "$top/reference/coder.py" "$bits" "$block" "$columns" < "$scratch/line" > "$scratch/plain_line"
            aec -m -n "$bits" -j "$block" -r "$interval" "$scratch/filled_line" "$scratch/their_line"
            aec -d -m -n "$bits" -j "$block" -r "$interval" "$scratch/coded_line" "$scratch/back_line"
            head -c "$(wc -c < "$scratch/filled_line")" "$scratch/back_line" > "$scratch/decoded_line"
            if ! cmp -s "$scratch/coded_line" "$scratch/plain_line" || ! cmp -s "$scratch/filled_line" "$scratch/decoded_line" ||
                [ "$(wc -c < "$scratch/coded_line")" -gt "$(wc -c < "$scratch/their_line")" ]; then
                echo "is coded in another way: bits $bits block $block columns $columns"
                failed=$((failed + 1))
            fi
            tried=$((tried + 1))
            if ! cmp -s "$scratch/samples" "$scratch/ours" || ! cmp -s "$scratch/filled" "$scratch/decoded"; then
                echo "differs: bits $bits block $block columns $columns"
                failed=$((failed + 1))
            fi
        done
    done
done
echo "tried $tried failed $failed"
[ "$failed" = 0 ]
