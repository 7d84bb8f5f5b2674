"""Seconds that sklearn's Lasso takes for a fit whose largest violation is at most the given one: with_sklearn.py FOLDER n p alpha violation.
The design is dense where there are no starts. The last line of standard output is the best of three; standard error says what was reached."""
import os
import sys
import time
import warnings

try:
    import numpy
    import scipy.sparse
    from sklearn.linear_model import Lasso
except ImportError as missing:
    sys.exit(f"with_sklearn.py: {missing}")

warnings.filterwarnings("ignore")
folder, n, p, alpha, wanted = sys.argv[1], int(sys.argv[2]), int(sys.argv[3]), float(sys.argv[4]), float(sys.argv[5])


def numbers(name):
    return numpy.fromfile(os.path.join(folder, name))


values, y, starts = numbers("values"), numbers("targets"), numbers("starts")
if len(starts):
    x = scipy.sparse.csc_matrix((values, numbers("rows").astype(numpy.int32), starts.astype(numpy.int32)), shape=(n, p))
else:
    # Column by column, as sklearn wants it: the copy is not timed.
    x = numpy.asfortranarray(values.reshape(n, p))


def violation(w):
    gradient = x.T @ (x @ w - y) / n
    return numpy.where(w == 0, numpy.maximum(abs(gradient) - alpha, 0), abs(gradient + numpy.sign(w) * alpha)).max()


for digits in range(3, 16):
    model = Lasso(alpha=alpha, fit_intercept=False, precompute=False, copy_X=False, tol=10.0**-digits, max_iter=100000)
    model.fit(x, y)
    reached = violation(model.coef_)
    if reached <= wanted:
        break
else:
    print(f"sklearn reaches {reached:.2e}, not {wanted:.2e}", file=sys.stderr)
    sys.exit(1)
seconds = []
for _ in range(3):
    start = time.perf_counter()
    model.fit(x, y)
    seconds.append(time.perf_counter() - start)
print(f"sklearn: tol 1e-{digits}, {model.n_iter_} passes, violation {reached:.2e}", file=sys.stderr)
print(min(seconds))
