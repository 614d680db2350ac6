demo:
	@bash host/demo.sh

test:
	bash .ci/run

bench:
	python3 bench/run.py

.PHONY: demo test bench
