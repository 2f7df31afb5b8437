#!/bin/sh
# Installs what `make tshark` needs beside the rest: Debian's package tshark. Needs root and the network.
set -eu
export DEBIAN_FRONTEND=noninteractive
echo "installing Debian's package tshark: apt-get update, apt-get install; no questions are asked"
apt-get update
apt-get install -y --no-install-recommends tshark
tshark --version | head -n 1
