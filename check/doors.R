# The R package's replies to the requests in a folder's file `cases`, into its file `replies` (check/doors.py).
library(seatlaw)
folder <- commandArgs(TRUE)[1]
data <- readBin(file.path(folder, "cases"), "raw", file.size(file.path(folder, "cases")))
ends <- which(data == as.raw(10))
output <- file(file.path(folder, "replies"), "wb")
at <- 0 # how many bytes are read

taken <- function(length) {
  at <<- at + length
  data[seq_len(length) + (at - length)]
}

word <- function(length) {
  text <- rawToChar(taken(length))
  Encoding(text) <- "UTF-8"
  text
}

while (at < length(data)) {
  line <- word(ends[ends > at][1] - at)
  numbers <- as.numeric(strsplit(trimws(line), " ")[[1]])
  lengths <- numbers[-(1:2)]
  words <- vapply(lengths[seq_len(numbers[1])], word, "")
  files <- list()
  for (i in seq_len(numbers[2])) {
    name <- word(lengths[numbers[1] + 2 * i - 1])
    files[[name]] <- taken(lengths[numbers[1] + 2 * i])
  }
  reply <- ask(words, files)
  texts <- list(charToRaw(reply$out), charToRaw(reply$err), reply$made)
  writeBin(charToRaw(sprintf("%d %s\n", reply$status, paste(lengths(texts), collapse = " "))), output)
  for (text in texts) writeBin(text, output)
}
close(output)
