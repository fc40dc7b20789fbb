#!/bin/sh
# Writes the theorem of each worked scenario in crates/worked/data/, and the list of them. `usual` is too large for one.
cd "$(dirname "$0")/.." || exit 1
out=crates/worked_proofs/proofs/Rows
mkdir -p $out
: > $out.antt
for file in crates/worked/data/*.toml; do
  [ "$(basename "$file")" != usual.toml ] || continue
  name=$(basename "$file" .toml | sed -E 's/(^|_)([a-z0-9])/\U\2/g')
  case $name in TwoEqual|TreeCommands|BudgetChange|CriticalThread) more=--upgraded ;; *) more= ;; esac
  python3 tools/row.py "$file" $more > "$out/$name.antt" || exit 1
  echo "pub mod $name" >> $out.antt
done
(cd crates/worked_proofs && rt fmt)
