# Many counts of returns that differ in the votes of their lists (docs/library.md, section 5).

# The votes of the lists of returns, in the order of their records.
votes <- function(returns) {
  records <- records_of(returns)
  lists <- records[records$kind == "list", ]
  data.frame(land = lists$land, party = lists$party, votes = as.numeric(lists$a), row.names = NULL)
}

# Counts, for each row of a matrix, the returns that have its numbers as the votes of their lists, valid and counted alike. Gives an integer matrix with
# the status of each count, and the numbers of its seat table; of a row without one these are NA.
counts <- function(book, returns, numbers) {
  book <- bytes(book)
  made <- template_of(returns)
  numbers <- matrix_of(numbers, made$lists)
  single <- function(data) ask(c("count", "--quiet", "book", "returns"), list(book = book, returns = data))
  if (!identical(single(bytes(returns)), single(filled(made)))) stop("these returns cannot be varied: written again they are counted otherwise")
  shape <- c(nrow(numbers), made$lists, length(made$names))
  answer <- .Call(C_counts, book, made$text, made$places, made$columns, as.vector(t(numbers)), as.numeric(shape))
  statuses <- as.integer(answer[[1]])
  if (any(statuses == 5)) stop("there is no memory for the counts")
  if (any(statuses == 8)) stop("a table has other lists than the returns")
  seats <- matrix(answer[[2]], nrow = nrow(numbers), ncol = length(made$names), byrow = TRUE)
  seats[statuses != 0, ] <- NA
  structure(cbind(statuses, seats), dimnames = list(NULL, c("status", made$names)))
}

# ---- what they share

CELLS <- c("kind", "land", "party", "a", "b", "c")

# The records of returns after their header, which is kept as an attribute.
records_of <- function(returns) {
  text <- sub("^\ufeff", "", read_text(bytes(returns)))
  records <- utils::read.csv(text = text, header = FALSE, colClasses = "character", col.names = CELLS, na.strings = character(), encoding = "UTF-8")
  structure(records[-1, ], header = records[1, ])
}

# A matrix of whole numbers with so many columns, each as a number of returns is.
matrix_of <- function(numbers, columns) {
  numbers <- if (is.matrix(numbers)) numbers else matrix(numbers, nrow = 1)
  if (ncol(numbers) != columns) stop("the matrix must have ", columns, " columns, one for each list")
  if (!is.numeric(numbers) || anyNA(numbers) || any(numbers < 0 | numbers >= 2^32 | numbers != floor(numbers))) stop("whole numbers from 0 to 4294967295 are asked for")
  storage.mode(numbers) <- "double"
  numbers
}

# The numbers of a seat table by their names, in the order in which it has them.
names_of <- function(records) {
  parties <- records$party[records$kind == "party"]
  lands <- records$land[records$kind == "land"]
  lists <- records[records$kind == "list", ]
  lists <- lists[order(match(lists$land, lands), match(lists$party, parties)), ]
  both <- function(entries) as.vector(rbind(entries, paste(entries, "winners", recycle0 = TRUE)))
  c("total", both(paste("party", parties, recycle0 = TRUE)), both(paste("list", lists$land, lists$party, recycle0 = TRUE)))
}

# Returns without the votes of their lists: the text, the places of the votes, and the column of each of them.
template_of <- function(returns) {
  records <- records_of(returns)
  is_list <- records$kind == "list"
  if (any(records$a[is_list] != records$b[is_list])) stop("the counted votes of a list are not all valid ones: they do not vary alike")
  base <- as.numeric(records$a[is_list])
  records[is_list, c("a", "b")] <- ""
  rows <- do.call(paste, c(rbind(attr(records, "header"), records), sep = ","))
  ends <- cumsum(nchar(rows, "bytes") + 1)
  # two commas follow a list's votes, its last cell and the end of its line
  last <- ends[-1][is_list] - nchar(records$c[is_list], "bytes") - 2
  list(
    text = bytes(paste0(paste(rows, collapse = "\n"), "\n")), lists = sum(is_list), base = base, names = names_of(records),
    places = as.vector(rbind(last - 1, last)), columns = as.numeric(rep(seq_len(sum(is_list)) - 1, each = 2))
  )
}

# The bytes of the returns with the votes that they had.
filled <- function(made) {
  text <- read_text(made$text)
  begins <- c(0, made$places)
  pieces <- substring(text, begins + 1, c(made$places, nchar(text)))
  bytes(paste0(pieces, c(format(made$base[made$columns + 1], scientific = FALSE, trim = TRUE), ""), collapse = ""))
}
