;; Tests the converter and the checker on histories as a Jepsen store has them. They are written by hand after Jepsen's
;; documents: no Jepsen is here. jepsen.checker and jepsen.store below have the shape of what is called of them, and no more.
;;
;;   clojure -cp callers/clojure callers/clojure/fcbench_test.clj PROGRAM

(ns jepsen.checker)

(defprotocol Checker
  (check [checker test history opts]))

(ns jepsen.store
  (:require [clojure.java.io :as io]))

(defn path [test & parts]
  (assert (:store test))
  (apply io/file (:store test) (map str (remove nil? (flatten parts)))))

(ns fcbench-test
  (:require [clojure.java.io :as io]
            [clojure.string :as string]
            [clojure.test :refer [deftest is run-tests]]
            [fcbench]
            [jepsen.checker]
            [jepsen.store])
  (:import (clojure.lang MapEntry)))

(def program (or (first *command-line-args*) "fcbench"))

(defn judged [history & [options]]
  (fcbench/check (merge {:program program} options) {:name "test"} history {}))

(defn profile [history & [options]]
  (fcbench/profile history (merge {:program program} options)))

(defn tuple [k v]
  (MapEntry/create k v))

(defn op
  ([process type f value] {:process process, :type type, :f f, :value value})
  ([process type f value object] (assoc (op process type f value) :object object)))

(defn done
  "A call and its reply."
  [process f argument reply & object]
  [(apply op process :invoke f argument object) (apply op process :ok f reply object)])

(defn with-file
  "What the function gives of a file with this text."
  [ending text function]
  (let [file (java.io.File/createTempFile "history" ending)]
    (try
      (spit file text)
      (function (.getPath file))
      (finally (.delete file)))))

(defn stored
  "The operations of this text of a store."
  [text]
  (with-file ".edn" text fcbench/read-history))

(defn refused
  "Why a history is not judged."
  [history & [options]]
  (let [{:keys [valid? reason]} (judged history options)]
    (is (= :unknown valid?))
    (first reason)))

(def register "
{:type :invoke, :f :write, :value 3, :process 0, :time 3291485317, :index 0}
{:type :info, :f :start, :value nil, :process :nemesis, :time 3300022804, :index 1}
{:type :info, :f :start, :value [:isolated {\"n1\" #{\"n2\" \"n3\"}, \"n2\" #{\"n1\"}}], :process :nemesis, :time 1.5, :index 2}
{:type :invoke, :f :read, :value nil, :process 1, :time 3310022804, :index 3}
{:type :ok, :f :write, :value 3, :process 0, :time 9123011220, :index 4}
{:type :ok, :f :read, :value 3, :process 1, :time 9200000000, :index 5, :error [:timeout #inst \"2026-11-26\"]}
{:type :invoke, :f :cas, :value [3 4], :process 0, :time 9300000000, :index 6}
{:type :info, :f :cas, :value [3 4], :process 0, :time 9400000000, :index 7, :error :timeout}
{:type :invoke, :f :read, :value nil, :process 2, :time 9500000000, :index 8}
{:type :ok, :f :read, :value 4, :process 2, :time 9600000000, :index 9}
")

(def old-read "
#jepsen.history.Op{:index 0, :time 10, :type :invoke, :process 0, :f :write, :value 1}
#jepsen.history.Op{:index 1, :time 11, :type :ok, :process 0, :f :write, :value 1}
#jepsen.history.Op{:index 2, :time 12, :type :invoke, :process 0, :f :write, :value 2}
#jepsen.history.Op{:index 3, :time 13, :type :ok, :process 0, :f :write, :value 2}
#jepsen.history.Op{:index 4, :time 14, :type :invoke, :process 1, :f :read, :value nil}
#jepsen.history.Op{:index 5, :time 15, :type :ok, :process 1, :f :read, :value 1}
")

(deftest a-register
  (let [history (stored register)]
    (is (= 10 (count history)))
    (is (= "{:process 0, :type :invoke, :f :write, :value 3, :object 0, :time 3291485317}
{:process :nemesis}
{:process :nemesis}
{:process 1, :type :invoke, :f :read, :value nil, :object 0, :time 3310022804}
{:process 0, :type :ok, :f :write, :value 3, :object 0, :time 9123011220}
{:process 1, :type :ok, :f :read, :value 3, :object 0, :time 9200000000}
{:process 0, :type :invoke, :f :cas, :value [3 4], :object 0, :time 9300000000}
{:process 0, :type :info, :f :cas, :value nil, :object 0, :time 9400000000}
{:process 2, :type :invoke, :f :read, :value nil, :object 0, :time 9500000000}
{:process 2, :type :ok, :f :read, :value 4, :object 0, :time 9600000000}
" (:text (profile history))))
    (is (= {:valid? true, :reason ["yes: 4 operations, 1 objects" "register: 1 objects, 4 operations"]}
           (judged history)))))

(deftest an-old-read
  (let [{:keys [valid? reason]} (judged (stored old-read))]
    (is (false? valid?))
    (is (= "object 0: impossible" (first reason)))
    (is (some #(re-find #"^events 4 and 5: process 1, :read nil, :ok 1" %) reason))))

(deftest keys-of-independent
  (let [history [(op 0 :invoke :write (tuple "x" 1))
                 (op 1 :invoke :write (tuple :y 2))
                 (op 0 :ok :write (tuple "x" 1))
                 (op 1 :info :write nil)
                 (op 0 :invoke :read (tuple :y nil))
                 (op 0 :ok :read (tuple :y 1))]
        {:keys [text keys]} (profile history)]
    (is (= {0 "x", 1 :y} keys))
    (is (.contains text "{:process 1, :type :info, :f :write, :value nil, :object 1}\n"))
    (is (= {:valid? false, :keys {0 "x", 1 :y}} (dissoc (judged history) :reason)))
    (is (= "object 1, which is :y: impossible" (first (:reason (judged history)))))
    ;; As the same history is in a file: the tuples are vectors.
    (let [written (mapv #(update % :value (fn [value] (when value (vec value)))) history)]
      (is (= text (:text (profile written {:independent? true}))))
      (is (= text (:text (profile written)))))))

(deftest a-lock-with-tokens
  (is (true? (:valid? (judged (concat (done 0 :acquire nil {:token 17}) (done 0 :release 17 "OK"))))))
  (is (false? (:valid? (judged (concat (done 0 :acquire nil 1) (done 1 :acquire nil 2)))))))

(deftest what-the-profile-lacks
  (is (= {:valid? :unknown, :reason ["operation 0: :txn is not one of the functions :enqueue, :dequeue, :push, :pop, :insert, :extract-min, :write, :read, :cas, :clear, :create, :put, :get, :del, :put-if-absent, :replace, :assoc, :dissoc, :acquire, :release, :add, :remove, :contains, :fetch-add, :get-count, :lock, :unlock"]}
         (judged [{:process 0, :type :invoke, :f :txn, :value [[:r 1 nil]]}])))
  (is (= {:valid? :unknown, :reason ["operation 1: #{1} cannot be the reply of :read, which is an integer, string or keyword, or nil"]}
         (judged [{:process 0, :type :invoke, :f :read, :value nil} {:process 0, :type :ok, :f :read, :value #{1}}])))
  (is (= :unknown (:valid? (judged [{:process 0, :type :ok, :f :read, :value 1}]))))
  (is (= :unknown (:valid? (judged [] {:program "/there/is/none"})))))

(deftest objects-with-names
  ;; "3" is not 3, and a name gets a number that is not in use.
  (let [history (concat (done 0 :write 1 1 "3") (done 0 :read nil nil 3) (done 0 :read nil 1 "3")
                        (done 0 :read nil nil) (done 0 :write 2 2 70000) (done 0 :write 2 2 -1) (done 0 :write 2 2 false))]
    (is (= {1 "3", 2 70000, 4 -1, 5 false} (:keys (profile history))))
    (is (= {:valid? true, :keys {1 "3", 2 70000, 4 -1, 5 false}} (dissoc (judged history) :reason))))
  (is (true? (:valid? (judged (concat (done 0 :write 1 1 "x y}") (done 0 :read nil nil :x))))))
  (is (empty? (:keys (profile (done 0 :write 1 1 65535)))))
  ;; A completion may leave its object out. Another one is no completion of it.
  (is (true? (:valid? (judged [(op 0 :invoke :write 1 "x") (op 0 :ok :write 1)]))))
  (is (= "operation 1: 4 is not the object of its invocation, operation 0: 3"
         (refused [(op 0 :invoke :write 1 3) (op 0 :ok :write 1 4)])))
  (is (= "malformed history: H1 at map 131072" (refused (mapcat #(done 0 :write 1 1 (str %)) (range 65537))))))

(deftest what-a-cas-replies
  (let [swap (fn [reply] (concat (done 0 :write 1 1) (done 0 :cas [5 2] reply) (done 0 :read nil 1)))
        odd (fn [text] (str "operation 3: " text " cannot be the reply of :cas, "
                            "which is true or its argument where it has set, and false where it has not"))]
    (is (true? (:valid? (judged (swap false)))))
    (is (false? (:valid? (judged (swap true)))))
    (is (false? (:valid? (judged (swap '(5 2))))))
    (doseq [[reply text] [[:not-equal ":not-equal"] [nil "nil"] ["OK" "\"OK\""] [0 "0"] [1 "1"] [{} "{}"]]]
      (is (= (odd text) (refused (swap reply)))))
    (is (string/starts-with? (refused (swap [5 3])) (odd "[5 3]")))))

(deftest what-others-reply
  (doseq [f [:write :enqueue :push :insert]]
    (doseq [reply [7 nil true "OK" :ok]]
      (is (true? (:valid? (judged (done 0 f 7 reply))))))
    (doseq [reply [false :full 8 "error" [7] {} 7.0]]
      (is (= (str "operation 1: " (pr-str reply) " cannot be the reply of " f ", which is its argument, true, \"OK\" or nil")
             (refused (done 0 f 7 reply))))))
  (doseq [f [:dequeue :pop :read :extract-min]
          reply [[1] #{} 1.5 {:empty true}]]
    (is (string/starts-with? (refused (done 0 f nil reply)) (str "operation 1: " (pr-str reply) " cannot be the reply of " f ", which is an integer"))))
  (doseq [f [:acquire :release]
          reply [false :busy 0 -1 [1] {} {:token nil} {:acquired false}]]
    (is (string/starts-with? (refused (done 0 f nil reply)) (str "operation 1: " (pr-str reply) " cannot be the reply of " f ", which is nil, true"))))
  (is (string/starts-with? (refused (done 0 :put [1 2] [1 2])) "operation 1: [1 2] cannot be the reply of :put, which is an integer")))

(deftest what-arguments-are
  (is (= "operation 0: 1.0 cannot be the argument of :write, which is an integer, string or keyword" (refused (done 0 :write 1.0 1.0))))
  (is (= "operation 0: nil cannot be the argument of :enqueue, which is an integer, string or keyword" (refused (done 0 :enqueue nil nil))))
  (is (= "operation 0: [1] cannot be the argument of :cas, which is a pair of integers, strings or keywords" (refused (done 0 :cas [1] true))))
  ;; Locks of several keys are not one lock.
  (is (true? (:valid? (judged (concat (done 0 :acquire [1 nil] [1 nil]) (done 1 :acquire [2 nil] [2 nil]))))))
  (is (= (str "operation 0: [1 2] cannot be the argument of :write, which is an integer, string or keyword. "
              "If it is a tuple of jepsen.independent, use {:independent? true}")
         (refused (done 0 :write [1 2] [1 2]))))
  (is (= "operation 0: -1 cannot be a :process, which is an integer of at least 0, a string, or a keyword" (refused (done -1 :read nil nil))))
  (is (= "operation 0: :done cannot be a :type, which is :invoke, :ok, :fail or :info" (refused [(op 0 :done :read nil)])))
  (is (= "operation 0 is no map: 7" (refused [7])))
  (is (= "operation 0: process 0 has no operation to complete" (refused [(op 0 :info :read nil)])))
  (is (= "operation 1: :read cannot complete :write, operation 0" (refused [(op 0 :invoke :write 1) (op 0 :ok :read 1)]))))

(deftest keys-of-completions
  (let [independent {:independent? true}]
    (is (= "operation 1: 2 is not the object of its invocation, operation 0: 1"
           (refused [(op 0 :invoke :read [1 nil]) (op 0 :ok :read [2 5])] independent)
           (refused [(op 0 :invoke :read (tuple 1 nil)) (op 0 :ok :read (tuple 2 5))])))
    (is (= "operation 1: nil is not a tuple [key value], unlike other values"
           (refused [(op 0 :invoke :read (tuple 1 nil)) (op 0 :ok :read nil)])))
    (is (= "operation 2: 3 is not a tuple [key value], unlike other values"
           (refused (concat (done 0 :write (tuple 1 1) (tuple 1 1)) (done 0 :write 3 3)))))
    (is (= "operation 0: it has both a key and an :object" (refused [(op 0 :invoke :read [1 nil] 4)] independent)))
    (is (true? (:valid? (judged [(op 0 :invoke :read [1 nil]) (op 0 :fail :read nil) (op 0 :invoke :read [2 nil]) (op 0 :info :read nil)]
                                (assoc independent :at-least 0)))))))

(deftest programs-that-are-none
  (is (nil? (#'fcbench/validity 0 "yes: 1 operations, 1 obj")))
  (doseq [[exit out] [[0 ""] [1 ""] [2 ""] [0 "yes: 3 operat\n"] [1 "yes: 1 operations, 1 objects\n"] [3 "yes: 1 operations, 1 objects\n"]
                      [0 "; object 0: impossible\n"] [3 "; object 0: impossible\n"] [1 "; object 0: impossib"] [1 "; object 0: open\n"]
                      [70 "yes: 1 operations, 1 objects\n"] [4 "yes: 1 operations, 1 objects\n"] [1 "no: C1 object 0 has no certificate\n"]]]
    (is (nil? (#'fcbench/validity exit out)) (str exit out)))
  (is (= [true false :unknown :unknown :unknown]
         (map (partial apply #'fcbench/validity)
              [[0 "yes: 1 operations, 1 objects\nqueue: 1 objects, 1 operations\n"] [1 "; object 6, which is \"x\": impossible\n; {:cuts []}\n"]
               [2 "malformed history: H8 at map 2\n"] [3 "; object 0: open\n"] [3 ""]])))
  ;; Of a key alone an empty history is a yes.
  (is (= :unknown (:valid? (judged []))))
  (is (= "fcbench: no operation returned" (first (:reason (judged [])))))
  (is (true? (:valid? (judged [] {:at-least 0}))))
  (is (true? (:valid? (fcbench/check {:program program} {:name "test"} [] {:history-key 3}))))
  (is (= :unknown (:valid? (judged (done 0 :write 1 1) {:at-least 2}))))
  (is (= {:valid? :unknown, :reason ["/bin/true ended with status 0 and without a verdict: is it fcbench?"]} (judged [] {:program "/bin/true"})))
  (is (= {:valid? :unknown, :reason ["/bin/false ended with status 1 and without a verdict: is it fcbench?"]} (judged [] {:program "/bin/false"})))
  (is (string/starts-with? (refused [] {:program "/there/is/none"}) "/there/is/none was not run: "))
  (is (true? (:valid? (judged (stored register) {:program (io/file program), :seconds 1000}))))
  (with-file ".sh" "#!/bin/sh\n[ \"$1 $2 $3\" = 'judge --seconds 7' ] || exit\necho '; object 0: open'\nexit 3\n"
    (fn [script]
      (.setExecutable (io/file script) true)
      (is (= {:valid? :unknown, :reason ["object 0: open"]} (judged [] {:program script, :seconds 7})))))
  (let [it (fcbench/checker {:program (io/file program), :fail-is-reply #(= :empty (:error %))})]
    (is (true? (:valid? (jepsen.checker/check it {:name "test"} (stored register) {}))))))

(deftest keys-and-indices-in-reasons
  (let [write (concat (done 0 :write (tuple 7 5) (tuple 7 5)) (done 0 :write (tuple 16 1) (tuple 16 1)) (done 0 :write (tuple 16 2) (tuple 16 2)))
        history (concat write (done 1 :read (tuple 16 nil) (tuple 16 1)))
        at (fn [indices] (map #(assoc %1 :index %2) history indices))
        {:keys [reason] :as answer} (judged (at (range)))]
    (is (= ["object 16: impossible"
            "value 1 was read after another content had replaced it; event 7 is the first that leaves no order"
            "events 4 and 5: process 0, :write 2, :ok 2, counted as a write of another value"
            "events 6 and 7: process 1, :read nil, :ok 1"]
           (butlast reason)))
    (is (not (contains? answer :keys)))
    (is (= ["events 4 and 5 (:index 104 and 105): process 0, :write 2, :ok 2, counted as a write of another value"
            "events 6 and 7 (:index 106 and 107): process 1, :read nil, :ok 1"]
           (subvec (:reason (judged (at (range 100 200)))) 2 4)))
    (is (= (last reason) (last (:reason (judged (at (range 100 200)))))))
    (is (= "operation 1 (:index 9): 1.5 cannot be the reply of :read, which is an integer, string or keyword, or nil"
           (refused [(op 0 :invoke :read nil) (assoc (op 0 :ok :read 1.5) :index 9)]))))
  (let [history (concat (done 0 :enqueue 1 1) (done 0 :dequeue nil nil) (done 0 :dequeue nil 1))]
    (is (= "the queue was definitely not empty when event 2 (:index 12) found nothing: value 1 was in it (dequeued later, by event 4 (:index 14)); event 3 (:index 13) is the first that leaves no order"
           (second (:reason (judged (map #(assoc %1 :index %2) history (range 10 20))))))))
  (is (= "operation 1 (:index 8): process 0 already has an operation outstanding"
         (first (:reason (judged [(assoc (op 0 :invoke :read nil) :index 7) (assoc (op 0 :invoke :read nil) :index 8)]))))))

(deftest a-page
  (let [file (io/file (System/getProperty "java.io.tmpdir") (str "fcbench" (System/nanoTime)) "page.html")
        page #(when (.exists file) (try (slurp file) (finally (.delete file))))
        draw {:draw (.getPath file)}]
    (is (not (contains? (judged (stored register) draw) :drawn)))
    (is (nil? (page)))
    (is (= (.getPath file) (:drawn (judged (stored register) (assoc draw :always true)))))
    (is (string/starts-with? (page) "<!DOCTYPE html>"))
    (is (= {:valid? false, :drawn (.getPath file)} (dissoc (judged (stored old-read) draw) :reason)))
    (is (string/includes? (page) "impossible"))
    ;; In the store of the test, and as it is said if the test has none.
    (let [store (.getParentFile file)
          it (fcbench/checker {:program program, :draw "page.html"})
          absolute (fcbench/checker {:program program, :draw (io/file file)})]
      (is (= (.getPath (io/file store "independent" "16" "page.html"))
             (:drawn (jepsen.checker/check it {:store store} (stored old-read) {:subdirectory ["independent" 16]}))))
      (is (= (.getPath file) (:drawn (jepsen.checker/check it {:store store} (stored old-read) {}))))
      (is (some? (page)))
      (is (= (.getPath file) (:drawn (jepsen.checker/check absolute {} (stored old-read) {}))))
      (is (some? (page)))
      (doseq [it [(io/file store "independent" "16" "page.html") (io/file store "independent" "16") (io/file store "independent") store]]
        (io/delete-file it)))
    ;; No page, and the verdict all the same.
    (let [{:keys [valid? reason drawn]} (judged (stored old-read) {:draw "/dev/null/page.html"})]
      (is (= [false nil] [valid? drawn]))
      (is (string/starts-with? (last reason) "there is no page: ")))))

(deftest values-with-names
  (let [queue (concat (done 0 :enqueue "a" "a") (done 0 :enqueue :a nil) (done 0 :enqueue 0 0) (done 0 :enqueue 18446744073709551615 nil))]
    (is (= {1 "a", 2 :a, 3 18446744073709551615N} (:values (profile queue))))
    (is (true? (:valid? (judged (concat queue (mapcat #(done 1 :dequeue nil %) ["a" :a 0 18446744073709551615N nil]))))))
    (is (= ["object 0: impossible"
            "value \"a\" was enqueued before value :a and dequeued after it; event 9 is the first that leaves no order"
            "events 0 and 1: process 0, :enqueue \"a\", :ok \"a\""
            "events 2 and 3: process 0, :enqueue :a, :ok :a"
            "events 8 and 9: process 1, :dequeue nil, :ok :a"]
           (butlast (:reason (judged (concat queue (mapcat #(done 1 :dequeue nil %) [:a "a"]))))))))
  (is (true? (:valid? (judged (concat (done 0 :write "x" "x") (done 0 :cas ["x" false] true) (done 0 :cas ["x" "y"] false) (done 0 :read nil false))))))
  (is (true? (:valid? (judged (concat (done 0 :put ["k" 1] nil) (done 0 :put ["l" "v"] nil) (done 0 :get "k" 1) (done 0 :del "l" "v") (done 0 :get "l" nil))))))
  (is (false? (:valid? (judged (concat (done 0 :put ["k" 1] nil) (done 0 :get "k" 2))))))
  ;; An integer is the same of each class.
  (is (true? (:valid? (judged (concat (done 0 :write 3N nil 4N) (done 0 :read nil (biginteger 3) (int 4)))))))
  (is (true? (:valid? (judged (concat (done 0 :write [3N 1] [3 1]) (done 0 :read [(int 3) nil] [3 1])) {:independent? true}))))
  (is (true? (:valid? (judged (concat (done 0 :write (biginteger 18446744073709551615N) nil) (done 0 :read nil 18446744073709551615N))))))
  ;; The order of a heap counts.
  (is (= "operation 0: \"a\" cannot be the argument of :insert, which is an integer of 64 bits" (refused (done 0 :insert "a" nil))))
  ;; A message is no value, and the string of a value is not the value.
  (let [odd "is the reply of :dequeue, but no operation puts that value in: it may be an error message, or the same value spelled differently"]
    (is (= (str "operation 1: :empty " odd) (refused (done 0 :dequeue nil :empty))))
    (is (= (str "operation 3: \"3\" " odd) (refused (concat (done 0 :enqueue 3 3) (done 0 :dequeue nil "3")))))
    (is (= (str "operation 3: \"a\" " odd) (refused (concat (done 0 :enqueue :a :a) (done 0 :dequeue nil "a")))))
    (is (= (str "operation 3: 3 " odd) (refused (concat (done 0 :enqueue "3" "3") (done 0 :dequeue nil 3)))))))

(deftest what-is-counted-as-another
  (let [lines-of (fn [history & [options]] (filter #(string/includes? % "counted as") (:reason (judged history options))))
        write #(done 0 :write % nil)]
    ;; The number of an other value may be that of a name, which it does not mean.
    (is (= ["events 4 and 5: process 0, :write \"b\", :ok \"b\", counted as a write of another value"]
           (lines-of (concat (write "z") (write "a") (write "b") (done 1 :read nil "a")))))
    (is (= ["events 2 and 3: process 0, :put [\"k\" \"b\"], :ok \"a\", counted as a write of another value, or of none"
            "events 4 and 5: process 0, :get \"k\", :ok \"a\", counted as :read nil, :ok \"a\""]
           (lines-of (concat (done 0 :put ["k" "a"] nil) (done 0 :put ["k" "b"] "a") (done 0 :get "k" "a")))))))

(deftest what-import-warns-of
  ;; Each warning is in the reason: the owners that are left out, and the token.
  (let [reason (:reason (judged (done 0 :acquire "c1" 17)))
        warnings (filter #(string/starts-with? % "fcbench: warning: ") reason)]
    (is (= ["left out: 1 owners" "left out: 1 replies"] (keep #(second (re-find #"warning: (left out: 1 \w+)" %)) warnings))))
  (is (= {0 (tagged-literal 'ver/a 1)} (:values (profile (done 0 :write (tagged-literal 'ver/a 1) nil))))))

(deftest failed-operations-that-reply
  (let [empty-one [(op 0 :invoke :dequeue nil) (assoc (op 0 :fail :dequeue nil) :error :empty)]
        history (concat (done 0 :enqueue 1 1) empty-one (done 0 :dequeue nil 1))]
    (is (true? (:valid? (judged history))))
    ;; It is told that an operation was left out.
    (is (string/starts-with? (last (:reason (judged history))) "fcbench: warning: left out: 1 failed :dequeue with :empty "))
    (is (not-any? #(string/includes? % "left out") (:reason (judged history {:fail-is-reply true}))))
    (is (false? (:valid? (judged (map #(if (:error %) (assoc % :error [:not-found "q"]) %) history) {:fail-is-reply true}))))
    (is (true? (:valid? (judged (map #(if (:error %) (assoc % :error (ex-info "gone" {})) %) history) {:fail-is-reply true}))))
    (is (= ["object 0: impossible" "the queue was definitely not empty when event 2 found nothing: value 1 was in it (dequeued later, by event 4); event 3 is the first that leaves no order"]
           (take 2 (:reason (judged history {:fail-is-reply true})))))
    (is (true? (:valid? (judged (map #(dissoc % :error) history) {:fail-is-reply true}))))
    (is (false? (:valid? (judged (map #(dissoc % :error) history) {:fail-is-reply #(= :dequeue (:f %))})))))
  (let [refused-swap [(op 0 :invoke :cas [1 2]) (assoc (op 0 :fail :cas [1 2]) :error :not-equal)]
        history (concat (done 0 :write 1 1) refused-swap)]
    (is (true? (:valid? (judged history {:fail-is-reply true}))))
    (is (false? (:valid? (judged history {:fail-is-reply #(= :not-equal (:error %))})))))
  ;; A failed :put has no such reply, and with tuples the key may be missing.
  (is (true? (:valid? (judged (concat (done 0 :put [1 1] nil) [(op 0 :invoke :put [1 2]) (op 0 :fail :put [1 2])]) {:fail-is-reply some?}))))
  (is (false? (:valid? (judged (concat (done 0 :push [5 1] [5 1]) [(op 0 :invoke :pop [5 nil]) (assoc (op 0 :fail :pop nil) :error :empty)])
                               {:fail-is-reply true, :independent? true})))))

(deftest initial-values
  (let [read-of (fn [value & object] (apply done 3 :read nil value object))]
    (is (false? (:valid? (judged (read-of 0)))))
    (is (= ["yes: 2 operations, 1 objects" "register: 1 objects, 2 operations"] (take 2 (:reason (judged (read-of 0) {:initial 0})))))
    (is (true? (:valid? (judged (concat (read-of 0 1) (read-of 5 "x") (read-of nil)) {:initial {1 0, "x" 5}}))))
    (is (true? (:valid? (judged (done 3 :read [8 nil] [8 "none"]) {:independent? true, :initial {8 "none"}}))))
    (is (true? (:valid? (judged (read-of false) {:initial false}))))
    (is (false? (:valid? (judged (read-of nil) {:initial 0}))))
    ;; Other objects have none, and numbers of maps are those of the history.
    (is (true? (:valid? (judged (concat (read-of 0 1) (done 0 :dequeue nil nil 2)) {:initial 0}))))
    (is (= "operation 0: object 2 has an initial value, but is not a register" (refused (done 0 :dequeue nil nil 2) {:initial {2 0}})))
    (is (= "operation 0: 1.5 cannot be an initial value, which is an integer, string or keyword" (refused (read-of 0) {:initial 1.5})))
    (is (= ["the following operations have no valid order; event 1 is the first that leaves no order"
            "the initial value: :write 9, :ok 9"
            "events 0 and 1: process 0, :cas [9 2], :ok false"]
           (rest (butlast (:reason (judged (done 0 :cas [9 2] false) {:initial 9}))))))
    (is (= "operation 1: process 0 already has an operation outstanding" (first (:reason (judged [(op 0 :invoke :read nil) (op 0 :invoke :read nil)] {:initial 0})))))))

(defn of-key
  "What jepsen.independent/checker hands to the checker of a key, after its document: the operations on the key and those without
  one, without their keys."
  [k history]
  (for [{:keys [value] :as op} history
        :let [is-tuple? (instance? MapEntry value)]
        :when (or (not is-tuple?) (= k (key value)))]
    (if is-tuple? (assoc op :value (val value)) op)))

(deftest within-independent
  (let [history (map-indexed #(assoc %2 :index %1)
                             (concat (done 0 :write (tuple "x" 1) (tuple "x" 1)) [(op :nemesis :info :start nil)]
                                     (done 0 :write (tuple "y" 1) (tuple "y" 1)) (done 0 :read (tuple "y" nil) (tuple "y" 2))))]
    (is (true? (:valid? (judged (of-key "x" history)))))
    (is (= {:valid? false} (dissoc (judged (of-key "y" history)) :reason)))
    (is (= ["object 0: impossible" "value 2 was read and never written; event 4 (:index 6) is the first that leaves no order"
            "events 3 and 4 (:index 5 and 6): process 0, :read nil, :ok 2"]
           (butlast (:reason (judged (of-key "y" history))))))
    ;; The same in one run, if it is given tuples.
    (is (= ["object 1, which is \"y\": impossible" "value 2 was read and never written; event 6 is the first that leaves no order"
            "events 5 and 6: process 0, :read nil, :ok 2"]
           (butlast (:reason (judged history)))))))

(def expected "; expected are maps as {:process 0, :type :invoke, :f :read, :value nil}")

(defn unread [ending text]
  (with-file ending text
    (fn [file]
      (try (fcbench/read-history file)
           (catch clojure.lang.ExceptionInfo error
             (string/replace (.getMessage error) file "FILE"))))))

(deftest files-of-a-store
  (let [operations (done 0 :read nil nil)]
    (is (= operations (stored (pr-str operations)) (stored (apply str (map prn-str operations))) (stored (pr-str (vec operations)))
           (stored (str "#jepsen.history.DenseHistory [" (string/join " " (map #(str "#jepsen.history.Op" (pr-str %)) operations)) "]")))))
  ;; What a store has in keys that are ignored.
  (let [history (stored "{:process 0, :type :invoke, :f :read, :time 1.5, :node n1, :seen #{1 \"a\"}}
    {:process 0, :type :info, :f :read, :error [:x #inst \"2026-11-26\"], :at #object[java.net.Socket 0x6f \"Socket[]\"], :ratio 1/3,
     :exception {:via [{:type java.net.SocketException, :message \"reset\", :at [a.b$c invoke \"b.clj\" 12]}], :trace [[a.b$c <init> nil -1]]}}")]
    (is (= 2 (count history)))
    (is (true? (:valid? (judged history {:at-least 0})))))
  (let [text ":nemesis\t:info\t:start\tnil\n0\t:invoke\t:dequeue\tnil\n0\t:fail\t:dequeue\tnil\t:empty\n1\t:invoke\t:enqueue\t[1 2]\t:a: b\n"]
    (is (= [{:process :nemesis} (op 0 :invoke :dequeue nil) (assoc (op 0 :fail :dequeue nil) :error :empty) (op 1 :invoke :enqueue [1 2])]
           (map #(if (= 1 (:process %)) (dissoc % :error) %) (with-file ".txt" text fcbench/read-history))))
    (is (string/starts-with? (unread ".txt" (str text "0\t:ok")) "FILE, line 5: no operation: 0\t:ok; expected are maps")))
  (is (string/starts-with? (unread ".json" "[{\"process\": 0, \"type\": \"invoke\"}]") (str "FILE, line 1: Invalid token: :" expected)))
  (is (re-find #"^FILE, line \d: EOF while reading" (unread ".edn" "{:process 0}\n{:process ")))
  (is (string/starts-with? (unread ".edn" "a history") (str "FILE, form 0: no map: a" expected))))

(deftest as-a-checker-of-jepsen
  (let [checker (fcbench/checker {:program program})]
    (is (satisfies? jepsen.checker/Checker checker))
    (is (true? (:valid? (jepsen.checker/check checker {:name "test"} (stored register) {}))))
    (is (false? (:valid? (jepsen.checker/check checker {:name "test"} (stored old-read) {}))))))

(let [{:keys [fail error]} (run-tests 'fcbench-test)]
  (shutdown-agents)
  (System/exit (if (zero? (+ fail error)) 0 1)))
