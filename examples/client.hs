-- Drives strsolve over pipes with the package simple-smt. Its replies come one by one: each command is
-- written after the reply to the one before it was read.
--
--     apt-get install ghc libghc-simple-smt-dev
--     mkdir -p /tmp/client && ghc -outputdir /tmp/client -o /tmp/client/client examples/client.hs
--     /tmp/client/client ./strsolve.sh
module Main (main) where

import SimpleSMT
import System.Environment (getArgs)

text :: String -> SExpr
text word = Atom ("\"" ++ word ++ "\"")

-- A membership in the words that repeat this one, at least once.
repeats :: SExpr -> String -> SExpr
repeats word part = fun "str.in_re" [word, fun "re.+" [fun "str.to_re" [text part]]]

-- Asks whether the word can be so where each of these holds, for this check only. `command` reads the reply.
assuming :: Solver -> [SExpr] -> IO ()
assuming solver literals = command solver (fun "check-sat-assuming" [List literals]) >>= putStrLn . flip showsSExpr ""

-- Asks for what makes the page hold a script, where what is typed is escaped or not.
ask :: Solver -> SExpr -> SExpr -> SExpr -> IO ()
ask solver page typed written = inNewScope solver $ do
    assert solver (eq page (fun "str.++" [text "/?q=", written]))
    assert solver (fun "str.contains" [page, text "<script"])
    result <- check solver
    print result
    case result of
        Sat -> command solver (fun "get-value" [List [page, typed]]) >>= putStrLn . flip showsSExpr ""
        _ -> return ()

main :: IO ()
main = do
    [program] <- getArgs
    logger <- newLogger 0
    solver <- newSolver program [] (Just logger)
    setLogic solver "QF_S"
    word <- declare solver "word" (Atom "String")
    assert solver (repeats word "ab")
    assert solver (gt (fun "str.len" [word]) (int 3))
    check solver >>= print
    command solver (fun "get-value" [List [word]]) >>= putStrLn . flip showsSExpr ""
    short <- define solver "short" tBool (lt (fun "str.len" [word]) (int 4))
    assuming solver [short]
    assuming solver [SimpleSMT.not short]
    page <- declare solver "page" (Atom "String")
    typed <- declare solver "typed" (Atom "String")
    ask solver page typed typed
    ask solver page typed (fun "str.replace_all" [typed, text "<", text "&lt;"])
    stop solver >>= print
