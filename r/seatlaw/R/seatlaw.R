# Counts by the proved calls of seatlaw, with results as data frames (docs/library.md, section 5).

# A rulebook of the library by its name, or of a file.
law <- function(name = NULL, file = NULL) {
  if (is.null(file)) law_text(name) else readBin(file, "raw", file.size(file))
}

# The text of a statute as bytes.
law_text <- function(name) charToRaw(done("law", name)$out)

# The names of the statutes of the library.
statutes <- function() strsplit(.Call(C_statutes), "\n")[[1]]

# Returns of a file.
read_returns <- function(file) readBin(file, "raw", file.size(file))

# Returns of data frames: lands (land, people), parties (party, minority), lists (land, party, valid, counted), winners (land, party,
# constituency, first, valid), lots (land, party, stage, constituency).
make_returns <- function(lands, parties, lists, winners = NULL, lots = NULL, house = NULL) {
  whole <- function(x) format(x, scientific = FALSE, trim = TRUE)
  or <- function(x, other) if (is.null(x)) other else ifelse(is.na(x), "", as.character(x))
  rows <- c(
    "kind,land,party,a,b,c",
    if (!is.null(house)) sprintf("house,,,%s,,", whole(house)),
    sprintf("land,%s,,%s,,", lands$land, whole(lands$people)),
    sprintf("party,,%s,%d,,", parties$party, as.integer(if (is.null(parties$minority)) 0 else parties$minority)),
    sprintf("list,%s,%s,%s,%s,", lists$land, lists$party, whole(lists$valid), whole(if (is.null(lists$counted)) lists$valid else lists$counted)),
    if (NROW(winners)) sprintf("win,%s,%s,%s,%s,%s", winners$land, or(winners$party, ""), winners$constituency, whole(winners$first), whole(winners$valid)),
    if (NROW(lots)) sprintf("lot,%s,%s,%s,%s,", or(lots$land, ""), or(lots$party, ""), lots$stage, or(lots$constituency, ""))
  )
  bytes(paste0(paste(rows, collapse = "\n"), "\n"))
}

# The seat table: its total, and data frames of parties, lists, vacant seats, and constituencies of singles and of winners without a seat.
count <- function(book, returns) table_of(counted("count", book, returns)$out)

# Each seat with its step, the bounds of the divisors, and the seat table.
steps <- function(book, returns) steps_of(counted("steps", book, returns)$out)

steps_of <- function(text) {
  lines <- lines_of(text)
  kind <- sub(" .*", "", lines)
  list(
    seats = scoped(lines[kind == "seat"], c("entry", "number", "step", "mark")),
    bounds = scoped(lines[kind == "bounds"], c("last", "next", "lot")),
    table = table_of(paste(lines[!kind %in% c("seat", "bounds")], collapse = "\n"))
  )
}

# The column of a stage.
stage <- function(book, returns, name) {
  words <- words_of(lines_of(counted("stage", book, returns, name)$out), c("entry", "value"))
  words$value <- as.integer(words$value)
  words
}

# The line of a good rulebook.
check <- function(book) sub("\n$", "", done("check", "book", list(book = bytes(book)))$out)

# The tables of `report`, `totals` and `compare` as data frames, by jsonlite where it is there, and else as JSON.
report <- function(book, returns, names = raw(), short = FALSE, before = raw(), language = "en") {
  tables_of(counted(c("report", "--json", if (short) "--short"), book, returns, options = list(names = names, before = before), language = language))
}

totals <- function(returns, book = raw(), names = raw(), language = "en") {
  books <- not_empty(list(book = book))
  tables_of(done(c("totals", "--json"), c("returns", names(books)), c(list(returns = bytes(returns)), books), list(names = names), language))
}

# A rulebook of one's own is a raw vector in a list, where its name is the word for it.
compare <- function(returns, books = paste0("@", statutes()), names = raw(), methods = character(), language = "en") {
  is_own <- vapply(books, is.raw, TRUE)
  words <- if (is.null(names(books))) rep("", length(books)) else names(books)
  words[words == ""] <- "book"
  files <- c(list(returns = bytes(returns)), structure(books[is_own], names = words[is_own]))
  words[!is_own] <- unlist(books[!is_own])
  if (anyDuplicated(names(files))) stop("two inputs have the same name: a rulebook may have one of its own")
  tables_of(done(c("compare", "--json", sprintf("--method=%s", methods)), c("returns", words), files, list(names = names), language))
}

# All that comes of a rulebook and returns: the seat table, the steps, the tables of the report, the columns of the stages, and the tables of the totals.
show_all <- function(book, returns, names = raw(), language = "en") {
  won <- steps(book, returns)
  told <- report(book, returns, names, language = language)
  stages <- tables_of(counted(c("stages", "--json"), book, returns, options = list(names = names), language = language))
  list(table = won$table, steps = won, report = told, stages = stages, totals = totals(returns, book, names, language))
}

# The bytes of a rulebook's code file, and the lines of its listing.
code <- function(book) {
  reply <- done("code", c("book", "out"), list(book = bytes(book)))
  list(file = reply$made, listing = lines_of(reply$out))
}

# A code file.
read_code <- function(file) readBin(file, "raw", file.size(file))

# The seat table with which the run of a code file ends.
run <- function(code, returns) table_of(done("run", c("code", "returns"), list(code = bytes(code), returns = bytes(returns)))$out)

# What the code of a fault means.
explain <- function(code, language = "en") done("explain", code, language = language)$out

# What the program does for these words behind its name, and for files of these names, raw vectors or lines.
ask <- function(words, files = list()) {
  stopifnot(length(files) == length(names(files)))
  reply <- .Call(C_ask, as.character(words), as.character(names(files)), lapply(files, bytes))
  list(status = reply[[1]], out = read_text(reply[[2]]), err = read_text(reply[[3]]), made = reply[[4]])
}

# The lot records that returns lack at a tie, of the condition that the call raised. That of a run has no parts: its text is read.
lots_lacking <- function(condition) {
  explained <- condition$explained()
  lines <- lines_of(if (is.null(explained)) condition$explanation("en") else "")
  records <- c(explained$records, sub("^.*: lot,", "lot,", grep("= \\w+: lot,", lines, value = TRUE)))
  cells <- strsplit(records, ",")
  cell <- function(i) vapply(cells, function(x) if (length(x) < i) "" else x[i], "")
  data.frame(land = cell(2), party = cell(3), stage = cell(4), constituency = cell(5))
}

# ---- what the calls share

bytes <- function(x) if (is.raw(x)) x else charToRaw(enc2utf8(paste(x, collapse = "\n")))

# The text that bytes are.
read_text <- function(data) {
  text <- rawToChar(data)
  Encoding(text) <- "UTF-8"
  text
}

# The inputs that are any bytes.
not_empty <- function(inputs) Filter(length, lapply(inputs, bytes))

# The reply to a command on a rulebook and returns that is done.
counted <- function(command, book, returns, ..., options = list(), language = "en") {
  done(command, c("book", "returns", ...), list(book = bytes(book), returns = bytes(returns)), options, language)
}

# The reply to a command with its inputs and their files that is done; any other one raises a condition. `options` are files by the names of options.
done <- function(command, inputs, files = list(), options = list(), language = "en") {
  options <- not_empty(options)
  words <- c(command, rbind(sprintf("--%s", names(options)), names(options)))
  again <- function(...) ask(c(words, ..., "--", inputs), c(options, files))
  reply <- again("--quiet", "--lang", language)
  if (reply$status != 0) stop(fault_of(reply, again, files))
  reply
}

lines_of <- function(text) strsplit(text, "\n", fixed = TRUE)[[1]]

# Lines as rows of words.
words_of <- function(lines, names) {
  words <- strsplit(lines, " ", fixed = TRUE)
  columns <- lapply(seq_along(names), function(i) vapply(words, function(x) x[i], ""))
  names(columns) <- names
  as.data.frame(columns, optional = TRUE)
}

numbers <- function(frame, names) {
  frame[names] <- lapply(frame[names], as.integer)
  frame
}

table_of <- function(text) {
  lines <- lines_of(text)
  kind <- sub(" .*", "", lines)
  of <- function(word, names) words_of(sub("^\\S+ ", "", lines[kind == word]), names)
  list(
    total = as.integer(sub("total ", "", lines[kind == "total"])),
    parties = numbers(of("party", c("party", "seats", "winners")), c("seats", "winners")),
    lists = numbers(of("list", c("land", "party", "seats", "winners")), c("seats", "winners")),
    vacant = numbers(of("vacant", c("land", "party", "seats")), "seats"),
    singles = of("single", "constituency")$constituency,
    open = of("open", "constituency")$constituency
  )
}

# Lines with a stage and a scope, `all`, `land X`, `party P` or `list X P`, before other words.
scoped <- function(lines, names) {
  words <- strsplit(lines, " ", fixed = TRUE)
  ends <- vapply(words, function(x) 2L + switch(x[3], all = 1L, land = 2L, party = 2L, list = 3L), 1L)
  frame <- data.frame(stage = vapply(words, `[`, "", 2), scope = mapply(function(x, end) paste(x[3:end], collapse = " "), words, ends))
  for (i in seq_along(names)) frame[[names[i]]] <- mapply(function(x, end) x[end + i], words, ends)
  if ("mark" %in% names) frame$mark <- mapply(function(x, end) paste(x[(end + 4):length(x)], collapse = " "), words, ends)
  if ("number" %in% names) frame <- numbers(frame, c("number", "step"))
  if ("lot" %in% names) frame$lot <- !is.na(frame$lot)
  frame
}

tables_of <- function(reply) if (requireNamespace("jsonlite", quietly = TRUE)) jsonlite::fromJSON(reply$out)$tables else reply$out
