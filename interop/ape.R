# ape's side. Rscript ape.R read|write IN OUT, a text a line.
#   read: each text read by read.tree; a line "ok TIPS EDGES", names and edges with commas between them, or "error WHY"
#   write: each text read, given lengths, rooted at some leaf or unrooted, and written by write.tree
suppressMessages(library(ape))
arguments <- commandArgs(trailingOnly = TRUE)
texts <- readLines(arguments[2], warn = FALSE)
set.seed(1)
told <- function(text) {
    tree <- tryCatch(suppressWarnings(read.tree(text = text)), error = function(e) conditionMessage(e))
    if (is.character(tree)) return(paste("error", gsub("[[:space:]]+", " ", tree)))
    if (is.null(tree)) return("error nothing read")
    edges <- paste(tree$edge[, 1], tree$edge[, 2], sep = "-", collapse = ",")
    paste("ok", paste(tree$tip.label, collapse = ","), edges)
}
written <- function(text) {
    tree <- read.tree(text = text)
    tree$edge.length <- round(runif(nrow(tree$edge)), 6)
    tree <- switch(sample(3, 1),
        tree,
        root(tree, outgroup = sample(tree$tip.label, 1), resolve.root = TRUE),
        unroot(root(tree, outgroup = sample(tree$tip.label, 1), resolve.root = TRUE)))
    write.tree(tree)
}
writeLines(vapply(texts, if (arguments[1] == "read") told else written, ""), arguments[3])
