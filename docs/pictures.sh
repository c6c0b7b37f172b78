#!/bin/sh
# pictures.sh [LAM_CHECK]: makes derivation-latex.png and derivation-html.png anew, with pdflatex, pdftoppm and chromium. The Debian packages
# are texlive-latex-extra (standalone.cls), texlive-science (bussproofs.sty), poppler-utils, chromium and fonts-dejavu-core.
set -eu
cd "$(dirname "$0")/.."
program=${1:-crates/lam_check/out/lam_check}
scratch=$(mktemp -d)
trap 'rm -rf "$scratch"' EXIT
for form in latex html; do
    "$program" --why 25:14 --$form examples/15_function_subtyping.fsub > "$scratch/derivation.$form"
done
pdflatex -interaction=nonstopmode -halt-on-error -output-directory="$scratch" "$scratch/derivation.latex" > "$scratch/printed" || { cat "$scratch/printed"; exit 1; }
pdftoppm -r 150 -png -singlefile "$scratch/derivation.pdf" docs/derivation-latex
# the window is as large as the page; Chromium has no sandbox for root
chromium --headless --no-sandbox --user-data-dir="$scratch/profile" --hide-scrollbars --force-device-scale-factor=1.5 --window-size=680,210 \
    --screenshot="$PWD/docs/derivation-html.png" "file://$scratch/derivation.html" 2> "$scratch/printed" || { cat "$scratch/printed"; exit 1; }
