# Tests of the R package, at the top of the repository.
library(seatlaw)
same <- function(a, b) if (!identical(a, b)) stop(paste("not the same:", paste(format(a), collapse = " "), "|", paste(format(b), collapse = " ")))
caught <- function(expr) tryCatch({ expr; NULL }, seatlaw_error = identity)

# A table.
book <- law(file = "examples/first-count/book.law")
returns <- read_returns("examples/first-count/returns.csv")
table <- count(book, returns)
same(table$total, 5L)
same(table$parties, data.frame(party = c("Reds", "Blues", "Greens"), seats = c(2L, 1L, 1L), winners = c(2L, 1L, 1L)))
same(nrow(table$lists), 5L)
same(table$singles, c("Islands", "Lakes"))
same(table$open, character())

# The parties of 2025, a stage, the steps.
bund <- read_returns("examples/elections/2025.csv")
same(stage(law("2023-order"), bund, "upper")$value, c(164L, 152L, 120L, 85L, 64L, 44L, 1L))
won <- steps(law("2023-order"), bund)
same(nrow(won$seats), 1260L)
same(won$table, count(law("2023-order"), bund))
same(won$bounds$scope[1:2], c("all", "party CDU"))
same(check(law("2023")), "book 1 house 630 stages 3 law Bundeswahlgesetz 2023")

# Returns of data frames.
made <- make_returns(
  lands = data.frame(land = c("North", "South"), people = c(900000, 700000)),
  parties = data.frame(party = c("Reds", "Blues")),
  lists = data.frame(land = c("North", "North", "South", "South"), party = c("Reds", "Blues"), valid = c(3e5, 250000, 140000, 310000)),
  winners = data.frame(
    land = c(rep("North", 4), "South"), party = c(rep("Reds", 4), "Blues"), constituency = c("Harbour", "Hills", "Lakes", "Valley", "Forest"),
    first = c(52000, 47000, 48000, 41000, 60000), valid = c(110000, 105000, 125000, 102000, 98000)
  ),
  house = 10
)
same(made, read_returns("examples/covered/returns.csv"))
same(count(law("2023-order"), made)$open, "Lakes")

# A refusal and a legal fault, with the lots that it lacks.
refused <- caught(count(law("2023"), charToRaw("kind;land\n")))
same(class(refused)[1], "seatlaw_refused")
same(refused$line, "refused returns 1 1")
stopifnot(grepl("R01", refused$explanation("en")), grepl("Fehler", refused$explanation("de")))
same(caught(law("2021"))$line, "refused law 2021")
tie <- caught(count(law(file = "examples/tie/book.law"), read_returns("examples/tie/returns.csv")))
same(class(tie)[1], "seatlaw_legal_fault")
same(lots_lacking(tie), data.frame(land = "Town", party = c("Reds", "Blues", "Greens"), stage = "council", constituency = ""))

# What explains them, in parts.
tied <- caught(report(law(file = "examples/tie/book.law"), read_returns("examples/tie/returns.csv")))
same(tied$line, tie$line)
same(tied$explained(), tie$explained())
same(tied$explained()[c("code", "input", "place", "more")], list(code = "L04", input = "returns", place = NULL, more = character()))
same(tied$explained()$records, c("lot,Town,Reds,council,,", "lot,Town,Blues,council,,", "lot,Town,Greens,council,,"))
same(lots_lacking(tied), lots_lacking(tie))
same(lots_lacking(caught(run(code(law(file = "examples/tie/book.law"))$file, read_returns("examples/tie/returns.csv")))), lots_lacking(tie))
for (wrong in list(refused, caught(totals(charToRaw("kind;land\n"))), caught(compare(charToRaw("kind;land\n"))))) {
  same(wrong$line, "refused returns 1 1")
  same(wrong$explained()$code, "R01")
  same(wrong$explained()$place, c(line = 1L, column = 1L, start = 0L, end = 9L))
  stopifnot(grepl("semicolons", wrong$explained()$sentence), grepl('"CSV UTF-8"', wrong$explained()$help[1], fixed = TRUE), grepl("Fehler", wrong$explanation("de")))
}
same(caught(check(charToRaw("rulebook 3;")))$explained()$place, c(line = 1L, column = 12L, start = 11L, end = 11L))
unknown <- caught(compare(bund, c("@2023", "@a\"b\\\u00e4")))
same(c(unknown$line, unknown$explained()$sentence), c("refused law a\"b\\\u00e4", "the library has no rulebook `a\"b\\\u00e4`"))
for (wrong in list(caught(stage(law("2023"), bund, "x")), caught(law("2021")))) {
  same(wrong$explained(), NULL)
  stopifnot(grepl("error\\[B", wrong$explanation("en")))
}
same(caught(report(law("2023"), bund, "a,b,c"))$explained(), NULL)

# Code files: a run is the count of the code's rulebook.
for (name in statutes()) {
  six <- read_returns("examples/six-laws/returns.csv")
  same(run(code(law(name))$file, six), count(law(name), six))
}
compiled <- code(law("2023-order"))$file
same(code(law("2023-order"))$listing[1], "0 at 0 0 0")
same(rawToChar(compiled[1:3]), "SLC")
path <- tempfile()
writeBin(compiled, path)
same(run(read_code(path), bund), count(law("2023-order"), bund))
cut <- caught(run(compiled[1:9], bund))
same(class(cut)[1], "seatlaw_refused")
stopifnot(startsWith(cut$line, "refused code file 4 9"), grepl("C04", cut$explanation("en")), grepl("Fehler", cut$explanation("de")))
endless <- as.raw(c(0x53, 0x4c, 0x43, 1, 0, 0, 2, 0, 0, 0, 0x2a, 0, 0, 0, 0, 9, 0, 0, 0, 0))
same(class(caught(run(endless, bund)))[1], "seatlaw_out_of_budget")
same(caught(run(compiled, charToRaw("kind;land\n")))$line, "refused returns 1 1")
same(caught(code(charToRaw("rulebook")))$status, 2L)

# What codes mean.
stopifnot(startsWith(explain("l04"), "L04: "), grepl("Was zu tun ist", explain("C15", "de")))
stopifnot(grepl("no such code", tryCatch(explain("B99"), error = conditionMessage)))

# Any request.
reply <- ask(c("count", "book", "returns"), list(book = charToRaw("rulebook 3;"), returns = returns))
same(reply[c("status", "out", "made")], list(status = 2L, out = "refused book parse 1 11\n", made = raw()))
stopifnot(startsWith(reply$err, "error[B07]: "))
same(ask(c("count", "@2023", "returns"))$status, 5L)

# All of a rulebook and returns.
shown <- show_all(law("2023-order"), bund)
same(shown$table, count(law("2023-order"), bund))
same(shown$steps, steps(law("2023-order"), bund))
same(shown$report, report(law("2023-order"), bund))
same(shown$totals, totals(bund, law("2023-order")))
same(caught(show_all(law("2023"), bund, "a,b,c"))$line, caught(report(law("2023"), bund, "a,b,c"))$line)
tied <- caught(show_all(law(file = "examples/tie/book.law"), read_returns("examples/tie/returns.csv"), "a,b,c"))
same(class(tied)[1], "seatlaw_legal_fault")
same(lots_lacking(tied), lots_lacking(tie))

# Many counts: each row is the count of its returns.
with_votes <- function(returns, numbers) {
  lines <- strsplit(rawToChar(returns), "\n", fixed = TRUE)[[1]]
  is_list <- startsWith(lines, "list,")
  cells <- strsplit(lines[is_list], ",", fixed = TRUE)
  lines[is_list] <- mapply(function(row, number) sprintf("list,%s,%s,%d,%d,", row[2], row[3], number, number), cells, numbers)
  lines
}
row_of <- function(book, returns) {
  found <- tryCatch(count(book, returns), seatlaw_error = identity)
  if (inherits(found, "seatlaw_error")) return(found$status)
  both <- function(frame) as.vector(rbind(frame$seats, frame$winners))
  c(0L, found$total, both(found$parties), both(found$lists))
}
set.seed(1)
for (file in c("covered", "first-count", "six-laws", "tie")) {
  returns <- read_returns(file.path("examples", file, "returns.csv"))
  base <- votes(returns)$votes
  numbers <- rbind(base, matrix(sample(c(0:3, 100 * (1:40), 100000001), 30 * length(base), replace = TRUE), nrow = 30), deparse.level = 0)
  for (book in list(law("2023"), law("2013"), law("1956"))) {
    found <- counts(book, returns, numbers)
    stopifnot(is.integer(found), nrow(found) == 31)
    for (i in seq_len(nrow(numbers))) {
      single <- row_of(book, with_votes(returns, as.integer(numbers[i, ])))
      same(unname(found[i, ]), c(single, rep(NA_integer_, ncol(found) - length(single))))
    }
  }
}
table <- count(law("2023-order"), bund)
found <- counts(law("2023-order"), bund, votes(bund)$votes)
same(colnames(found)[1:4], c("status", "total", "party CDU", "party CDU winners"))
same(unname(found[, paste("party", table$parties$party)]), table$parties$seats)
same(unname(found[, paste("list", table$lists$land, table$lists$party)]), table$lists$seats)
for (wrong in list(1, rbind(votes(bund)$votes, -1), votes(bund)$votes + 0.5)) stopifnot(inherits(try(counts(law("2023"), bund, wrong), silent = TRUE), "try-error"))

# The tables of reports.
if (requireNamespace("jsonlite", quietly = TRUE)) {
  same(report(law("2023-order"), bund)$entries$missing[1], 12422L)
  same(report(law("2023-order"), bund)$scopes$last[1:2], list("CSU", "Bund/CDU"))
  same(report(law("2023-order"), bund)$entries[8, c("land", "party")], data.frame(land = "Bund", party = "CDU", row.names = 8L))
  same(totals(bund)$totals$parties, 7L)
  same(compare(bund)$books$book[6], "@2023-order")
  own <- compare(bund, list("@2023", mine = law("2013"), book), methods = "adams")
  same(own$books$book, c("@2023", "mine", "book", "@2023+adams", "mine+adams", "book+adams"))
  same(own$compare$mine[2], count(law("2013"), bund)$parties$seats[1])
  short <- report(law("2023-order"), bund, short = TRUE, before = "total 3\nparty CDU 2 0\nparty X 1 0\n")
  same(unlist(short$press[1, c("seats", "before", "change")]), c(seats = 164L, before = 2L, change = 162L))
  stopifnot(grepl("Sperrklausel", totals(bund, law("2023"), language = "de")$warnings$text))
  same(shown$stages$stages$stage[2:3], c("upper", "lower"))
} else {
  stopifnot(grepl("12422", report(law("2023-order"), bund)))
}
cat("the R package: nothing is wrong\n")
