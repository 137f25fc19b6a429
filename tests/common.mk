# Shared by the Makefiles beside it. A recipe fails where any of its commands fails.
SHELL := bash
.SHELLFLAGS := -euo pipefail -c
.DELETE_ON_ERROR:

ifeq ($(origin CC),default)
CC := gcc
endif
SANITIZE := -fsanitize=address,undefined -fno-sanitize-recover=all
