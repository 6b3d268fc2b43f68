(ns fcbench
  "Judges histories of Jepsen by the program fcbench. It is one file without dependencies: copy it.

    (require '[fcbench])
    (fcbench/checker {:program \"fcbench\"})                    ; a jepsen.checker/Checker
    (fcbench/check {} test history opts)                      ; {:valid? .., :reason [..]}
    (fcbench/profile (fcbench/read-history \"history.edn\"))    ; {:text .., :keys ..}

  A history is a sequence of operation maps, as Jepsen has it in memory or in history.edn of its store. The program's command import
  makes a text of them, with one map for each operation, in its place, and its command judge tells the answer in the words of the history.

  A verdict is of what the history says. If it is not plain what an operation says, as a :cas that replies nil, nothing is
  assumed: :valid? is :unknown, and the reason names the operation.

  Options of profile, check and checker:
    :independent?   values are tuples [key value] of jepsen.independent, even if they are plain vectors, as in a file
    :fail-is-reply  which failed operations are replies of nil, or of a :cas of false: a predicate of such an operation; or true,
                    by which it is one if its :error is :empty or :not-found
    :initial        what registers contain at first: {object value}, or one value for all
    :program        the program, else fcbench on the path
  Options of check and checker:
    :steps          the most steps of the last search for each object
    :at-least       how many operations must have returned for a :valid? of true: 1, or of a key of jepsen.independent 0
    :seconds        when the search stops, and the history is judged by what was found
    :draw, :always  a file for the page of fcbench draw, written if :valid? is not true, or always"
  (:require [clojure.edn :as edn]
            [clojure.java.io :as io]
            [clojure.java.shell :as shell]
            [clojure.string :as string])
  (:import (clojure.lang ExceptionInfo LineNumberingPushbackReader MapEntry)
           (java.io IOException StringReader)
           (java.nio.file Files)
           (java.nio.file.attribute FileAttribute)))

;; Histories that are refused

(defn- refuse-history [& words]
  (throw (ex-info (apply str words) {::refused true})))

(defn- index-of
  "The :index of an operation, if it is not its place in the history."
  [place op]
  (let [index (:index op)]
    (when (and (integer? index) (not= index place))
      index)))

(defn- places-words
  "These places of the history, and each :index if one differs."
  [history numbers]
  (let [places (map #(Long/parseLong %) numbers)
        operations (map #(get history %) places)
        words #(string/join " and " %)]
    (str (words places)
         (when (some identity (map index-of places operations))
           (str " (:index " (words (map :index operations)) ")")))))

(defn- with-indices
  "A line of the program, with the :index of each event that it names. Of an operation these are at its beginning, since its values may be
  any words."
  [history line]
  (let [place #"\b(events?|map|operation) (\d+(?:, \d+)*(?: and \d+)?)"
        told (fn [[_ word numbers]] (str word " " (places-words history (re-seq #"\d+" numbers))))]
    (cond
      (string/starts-with? line "{") line
      (re-find #"^events? [\d and]+: process " line) (string/replace-first line place told)
      :else (string/replace line place told))))

;; The program

(defn- run [{:keys [program]} & words]
  (apply shell/sh (str (or program "fcbench")) (map str words)))

(defn- with-folder
  "What the function gives of a new folder, which is there so long."
  [function]
  (let [folder (.toFile (Files/createTempDirectory "fcbench" (make-array FileAttribute 0)))]
    (try
      (function folder)
      (finally
        (doseq [file (reverse (file-seq folder))]
          (io/delete-file file))))))

(defn- strange [{:keys [program]} exit]
  (str (or program "fcbench") " ended with status " exit " and without a verdict: is it fcbench?"))

;; From operations to a text, by import

(defn- is-client? [{:keys [process]}]
  (not (keyword? process)))

(defn- with-error
  "The operation with the error by which import knows a failed one that is a reply: if a predicate says so, with that of an empty
  content, and otherwise with its own."
  [fail-is-reply {:keys [type] :as op}]
  (if (ifn? fail-is-reply)
    (cond-> (dissoc op :error)
      (and (= :fail type) (fail-is-reply op)) (assoc :error :empty))
    op))

(defn- line
  "The line of an operation: of the nemesis, and of others whose process is a keyword, the process alone."
  [fail-is-reply place op]
  (when-not (map? op)
    (refuse-history "operation " place " is no map: " (pr-str op)))
  (binding [*print-length* nil, *print-level* nil, *print-namespace-maps* false, *print-meta* false]
    (prn-str (if (is-client? op)
               (select-keys (with-error fail-is-reply op) [:process :type :f :value :object :error :time])
               (select-keys op [:process])))))

(defn- has-tuples? [history]
  (boolean (some #(and (is-client? %) (instance? MapEntry (:value %))) history)))

(defn- named
  "Of a table of names, what the numbers of this sort stand for."
  [table sort]
  (into (sorted-map) (keep (fn [entry] (when (contains? entry sort) [(entry sort) (:is entry)]))) table))

(defn- imported
  "Lets the program write a text of the history and a table of names into this folder. It throws if an operation can't be judged."
  [{:keys [independent? fail-is-reply initial] :as options} history folder]
  (let [[operations names text] (map #(io/file folder %) ["operations.edn" "names.edn" "history.edn"])
        flags (concat (when fail-is-reply ["--fail-is-reply"])
                      (when (or independent? (has-tuples? history)) ["--independent"])
                      (when (some? initial) ["--initial" (pr-str initial)]))]
    (spit operations (apply str (map-indexed #(line fail-is-reply %1 %2) history)))
    (spit names "")
    (let [{:keys [exit out err]} (if (some is-client? history)
                                   (apply run options "import" "--names" names (concat flags [operations]))
                                   {:exit 0, :out ""})
          warning (not-empty (string/join "\n" (re-seq #"(?m)^fcbench: warning: .*$" (str err))))
          [_ why] (re-find #"(?s)^fcbench: .*?, line \d+: (.*)\n" (str err))]
      (cond
        (= 0 exit) (spit text out)
        why (refuse-history (string/replace (with-indices (vec history) why) "use --independent" "use {:independent? true}"))
        :else (refuse-history (strange options exit) " " err))
      (let [table (map #(edn/read-string {:eof nil, :default tagged-literal} %) (string/split-lines (slurp names)))]
        {:text out, :warning warning, :keys (named table :object), :values (named table :value), :before (or (some :before table) 0)}))))

(defn profile
  "The text that fcbench judges, as its command import makes it, and its :warning, with a line for each; :keys and :values, which have by its
  number each key, object or value that has got one; and :before, how many maps of initial values are before the first operation. It
  throws if an operation can't be judged."
  ([history] (profile history {}))
  ([history options] (with-folder #(imported options history %))))

;; Histories in files

(def expected
  (str "expected are maps as {:process 0, :type :invoke, :f :read, :value nil}, one after another or in one vector, "
       "as in history.edn of a Jepsen store, or the lines of its history.txt"))

(defn- refuse-file [file place why]
  (throw (ex-info (str file ", " place ": " why "; " expected) {::refused true})))

(defn- tagged
  "What a tagged form is: of a record, whose tag is the name of its class, its map; of any other tag, the form with the tag."
  [tag value]
  (if (and (string/includes? (name tag) ".") (nil? (namespace tag)))
    value
    (tagged-literal tag value)))

(defn- forms-of
  "The forms of a text that begins at this line of the file."
  [file line text]
  (let [reader (doto (LineNumberingPushbackReader. (StringReader. text)) (.setLineNumber line))
        options {:eof ::end, :default tagged}
        form #(try (edn/read options reader)
                   (catch RuntimeException error
                     (refuse-file file (str "line " (.getLineNumber reader)) (.getMessage (or (.getCause error) error)))))]
    (doall (take-while #(not= ::end %) (repeatedly form)))))

(defn- maps-of [file text]
  (let [forms (forms-of file 1 text)
        operations (vec (if (and (= 1 (count forms)) (sequential? (first forms))) (first forms) forms))]
    (doseq [[place form] (map-indexed vector operations)]
      (when-not (map? form)
        (refuse-file file (str "form " place) (str "no map: " (pr-str form)))))
    operations))

(def row #"(\d+)\s+(:invoke|:ok|:fail|:info)\s+(:\S+)\s+([^\t]*)(?:\t(.*))?")

(defn- read-or-text [text]
  (try (edn/read-string {:default tagged} text)
       (catch RuntimeException _ text)))

(defn- row-of
  "The operation of a line of history.txt. Of the nemesis only the process is read."
  [file line text]
  (if-let [[_ process type f value error] (when-not (string/starts-with? text ":") (re-matches row text))]
    (cond-> {:process (edn/read-string process), :type (edn/read-string type), :f (edn/read-string f)
             :value (first (forms-of file line value))}
      error (assoc :error (read-or-text error)))
    (if (re-find #"^:\S+\s+:(invoke|ok|fail|info)\s" text)
      {:process :nemesis}
      (refuse-file file (str "line " line) (str "no operation: " text)))))

(defn- rows-of [file text]
  (into [] (comp (map-indexed vector)
                 (remove #(string/blank? (second %)))
                 (map (fn [[place text]] (row-of file (inc place) text))))
        (string/split-lines text)))

(defn read-history
  "The operations of history.edn of a Jepsen store: a map after another, or one vector of them; or of its history.txt.
  Tags are dropped."
  [file]
  (let [text (slurp file)]
    (if (re-find #"\A\s*(?:\d+|:\S+)\s+:(?:invoke|ok|fail|info)\s" text)
      (rows-of file text)
      (maps-of file text))))

;; A judgement

(defn- lines-of
  "The lines of the program, which tells them in the words of the history."
  [history text]
  (->> (string/split-lines text)
       (remove string/blank?)
       (mapv #(with-indices history (string/replace-first % #"^; " "")))))

(defn- limits [{:keys [steps at-least]}]
  (concat (when steps ["--steps" steps]) (when at-least ["--at-least" at-least])))

(defn- validity
  "What the exit status says, if the lines fit it, by the table of docs/commands.md: so no other program's status is taken for a verdict.
  It is nil if they do not. Without a line 3 says that nothing is decided, and standard error why."
  [exit out]
  (let [is-no (re-find #"(?m)^; object .*: impossible$" out)]
    (cond
      (and (= 3 exit) (= "" out)) :unknown
      (not (string/ends-with? out "\n")) nil
      (and (= 0 exit) (re-matches #"yes: \d+ operations, \d+ objects\n(\w+: \d+ objects, \d+ operations\n)*" out)) true
      (and (= 1 exit) is-no) false
      (and (= 2 exit) (string/starts-with? out "malformed history: ")) :unknown
      (and (= 3 exit) (not is-no) (re-find #"(?m)^(; object .*: (open|out of .*)|out of memory|malformed evidence: .*)$" out)) :unknown)))

(defn- judged [{:keys [seconds] :as options} history folder]
  (let [words (concat (limits options) (when seconds ["--seconds" seconds]) ["--names" (io/file folder "names.edn") (io/file folder "history.edn")])
        {:keys [exit out err]} (apply run options "judge" words)
        valid? (validity exit out)]
    {:valid? (if (nil? valid?) :unknown valid?)
     :reason (into (if (nil? valid?) [(strange options exit)] []) (lines-of history (str out err)))}))

(defn- with-page
  "The answer, and the page if one is asked for."
  [{:keys [draw always] :as options} folder answer]
  (if (and draw (or always (not (true? (:valid? answer)))))
    (let [{:keys [exit out]} (apply run options "draw" (concat (limits options) ["--names" (io/file folder "names.edn") (io/file folder "history.edn")]))]
      (try
        (when-not (string/starts-with? out "<!DOCTYPE html>")
          (throw (IOException. (str "status " exit " of draw"))))
        (io/make-parents draw)
        (spit draw out)
        (assoc answer :drawn (str draw))
        (catch IOException error
          (update answer :reason conj (str "there is no page: " (.getMessage error))))))
    answer))

(defn check
  "What a checker says of a history: :valid? is true, false or :unknown, and :reason the lines that say why. :keys and :values
  have what has got a number, and :drawn is the file of the page. If an operation of a line has an :index that is not its place
  in the history, the line says it too."
  [{:keys [program] :as options} _test history {:keys [history-key]}]
  (try
    (with-folder
      (fn [folder]
        (let [options (merge (when history-key {:at-least 0}) options)
              {:keys [warning] :as made} (imported options history folder)
              answer (cond-> (with-page options folder (judged options (vec history) folder))
                       warning (update :reason into (string/split-lines warning)))]
          (into answer (remove #(empty? (val %))) (select-keys made [:keys :values])))))
    (catch ExceptionInfo error
      (if (::refused (ex-data error))
        {:valid? :unknown, :reason [(.getMessage error)]}
        (throw error)))
    (catch IOException error
      {:valid? :unknown, :reason [(str (or program "fcbench") " was not run: " (.getMessage error))]})))

;; The checker

(defprotocol Checker
  "What jepsen.checker/Checker is, if Jepsen is not on the path."
  (check-history [checker test history opts]))

(defn- resolved
  "What this symbol names, if its namespace is on the path."
  [it]
  (try (requiring-resolve it) (catch IOException _ nil)))

(defn- in-store
  "The options with the page in the test's folder of Jepsen's store, if there is one."
  [{:keys [draw] :as options} test {:keys [subdirectory]}]
  (let [path (when (and draw (not (.isAbsolute (io/file draw)))) (resolved 'jepsen.store/path))]
    (if path
      (assoc options :draw (try (path test subdirectory (str draw))
                                (catch AssertionError _ draw)))
      options)))

(defn checker
  "A checker: of jepsen.checker/Checker if Jepsen is on the path, else of Checker above. A page is drawn in the store of the test."
  ([] (checker {}))
  ([options]
   (let [ask (fn [test history opts] (check (in-store options test opts) test history opts))]
     (if (resolved 'jepsen.checker/check)
       ((eval '(fn [ask]
                 (reify jepsen.checker/Checker
                   (check [_ test history opts] (ask test history opts)))))
        ask)
       (reify Checker
         (check-history [_ test history opts] (ask test history opts)))))))
