#!/usr/bin/env bash
# Runs cargo on the model, its output under the project's target/. With the feature c_engine the proved library is
# built first.
set -euo pipefail
cd "$(dirname "$0")/../.."
case " $* " in *c_engine*) tests/library.sh host ;; esac
export CARGO_TARGET_DIR=$PWD/target/model
exec cargo "$1" --manifest-path tests/model/Cargo.toml "${@:2}"
