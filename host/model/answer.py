#!/usr/bin/env python3
"""Answers jobs with the model ../shared/model/model.py, as one side of the comparison.

Usage: answer.py MODEL_DIRECTORY [MISREADING], with a misreading named in misreadings.py.

A request on standard input is six four-byte numbers, little-endian (the four limits, the length of the
listing area, the length of the job), then the job.  An answer on standard output is four such numbers
and a listing: 1, variables, clauses, length of the listing; or 0, number, place, 0.
"""
import struct
import sys

REQUEST = struct.Struct('<6I')
ANSWER = struct.Struct('<4I')


def load_model(directory, misreading):
    sys.dont_write_bytecode = True
    sys.path.insert(0, directory)
    import model
    if misreading is not None:
        import misreadings
        misreadings.apply(model, misreading)
    # The model serves a run's tasks by recursion.
    sys.setrecursionlimit(100_000)
    return model


def answer(model, job, limits, listing_area):
    result = model.read_job(job, model.Limits(*limits))
    if isinstance(result, model.Job):
        listing = model.listing(result.state).encode()
        if len(listing) <= listing_area:
            counts = len(result.state.origins), len(result.state.clauses)
            return ANSWER.pack(1, *counts, len(listing)) + listing
        result = model.Refusal(10, len(job))
    return ANSWER.pack(0, result.number, result.place, 0)


def main():
    directory, *rest = sys.argv[1:]
    model = load_model(directory, rest[0] if rest else None)
    source, sink = sys.stdin.buffer, sys.stdout.buffer
    while header := source.read(REQUEST.size):
        *limits, listing_area, length = REQUEST.unpack(header)
        sink.write(answer(model, source.read(length), limits, listing_area))
        sink.flush()


if __name__ == '__main__':
    main()
