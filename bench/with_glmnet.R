# Seconds that glmnet takes for a fit whose largest violation is at most the given one: with_glmnet.R FOLDER n p alpha violation.
# The last line of standard output is the best of three; standard error says what was reached.
suppressMessages(library(glmnet))
words <- commandArgs(trailingOnly = TRUE)
folder <- words[1]; n <- as.integer(words[2]); p <- as.integer(words[3]); alpha <- as.numeric(words[4]); wanted <- as.numeric(words[5])
numbers <- function(name) { path <- file.path(folder, name); readBin(path, "double", file.size(path) / 8) }
values <- numbers("values"); y <- numbers("targets"); starts <- numbers("starts")
if (length(starts) > 0) {
    x <- Matrix::sparseMatrix(i = as.integer(numbers("rows")), p = as.integer(starts), x = values, dims = c(n, p), index1 = FALSE)
} else {
    x <- matrix(values, n, p, byrow = TRUE)
}
fit <- function(digits) glmnet(x, y, lambda = alpha, standardize = FALSE, intercept = FALSE, thresh = 10^-digits, maxit = 1e6)
violation <- function(w) {
    gradient <- as.vector(Matrix::crossprod(x, as.vector(x %*% w) - y)) / n
    max(ifelse(w == 0, pmax(abs(gradient) - alpha, 0), abs(gradient + sign(w) * alpha)))
}
for (digits in 5:25) {
    found <- fit(digits)
    reached <- violation(as.vector(found$beta))
    if (reached <= wanted) break
}
if (reached > wanted) { message(sprintf("glmnet reaches %.2e, not %.2e", reached, wanted)); quit(status = 1) }
seconds <- sapply(1:3, function(turn) system.time(fit(digits))[["elapsed"]])
message(sprintf("glmnet: thresh 1e-%d, violation %.2e", digits, reached))
cat(min(seconds), "\n")
