#!/bin/sh
# Lays the Rust of tiberius/, byte for byte, into src/, and the stand-ins beside it, never over it.
set -eu
cd "$(dirname "$0")"
SOURCE=${SOURCE:-tiberius}
rm -rf src
for p in \
  src/lib.rs src/sql_read_bytes.rs src/tds.rs src/tds/time.rs src/tds/codec.rs \
  src/tds/codec/column_data.rs src/tds/codec/column_data/plp.rs \
  src/tds/codec/column_data/var_len.rs src/tds/codec/encode.rs \
  src/tds/codec/guid.rs src/tds/codec/header.rs src/tds/codec/pre_login.rs \
  src/tds/codec/type_info.rs src/tds/codec/token/token_row.rs \
  src/tds/codec/token/token_env_change.rs
do
  mkdir -p "$(dirname $p)"
  cp "$SOURCE/$p" "$p"
  cmp "$SOURCE/$p" "$p"
done
( cd standins && find . -type f ) | while read -r f; do
  if [ -e "src/$f" ]; then echo "stand-in $f would hide a file of tiberius/" >&2; exit 1; fi
  mkdir -p "src/$(dirname "$f")"
  cp "standins/$f" "src/$f"
done
echo "tiberius/ in place, unchanged"
