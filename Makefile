# make demo                  reports of the networks in examples/, what they mean, lists, corners, a thickness, and from a cable list to a picture
# make demo NET=file         the report of a network of yours, as text or as a cable list (NAME.csv)
# make test                  prove and test everything; the last line is `N passed, 0 failed`
# make soak [N=100000]       compare so many random cases with the reference; SEED=.. repeats a run
# make bench                 the report's time against its search alone and the plain method, and the other entries' against the report's
.PHONY: demo test soak bench

N ?= 100000

demo:
	@tools/demo

test:
	@tools/test

soak:
	@tools/compare --soak $(N) $(if $(filter command,$(firstword $(origin SEED))),--seed $(SEED))

bench:
	@tools/bench
