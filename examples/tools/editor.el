;;; editor.el --- Tests the mode  -*- lexical-binding: t -*-

;; Writes to the file `out' what Emacs makes of the words of the store, and where it goes when a file is refused.

(require 'subr-x)
(load (expand-file-name "editors/emacs/tlplan-mode.el") nil t)

(let ((top default-directory) (lines nil))
  (find-file "examples/tools/store.domain")
  (font-lock-ensure)
  (push (symbol-name major-mode) lines)
  (dolist (word '("; A store" "operator (move" "?r ?from" "del (" "always" "exists" "store\n"))
    (goto-char (point-min))
    (let ((case-fold-search nil)) (search-forward word))
    (push (format "%s %s" (string-trim word) (get-text-property (match-beginning 0) 'face)) lines))
  (with-current-buffer (get-buffer-create "*compilation*")
    (setq default-directory top)
    (process-file (expand-file-name "tools/where") nil t nil "plan" "breadth" "20" "20000" "examples/ferry/ferry-open.domain"
                  "examples/ferry/ferry.problem")
    (compilation-mode)
    (goto-char (point-min))
    (setq next-error-last-buffer (current-buffer)))
  (dotimes (_ 2)
    (next-error)
    (set-buffer (window-buffer (selected-window)))
    (push (format "%s:%d:%d" (file-relative-name buffer-file-name top) (line-number-at-pos) (1+ (current-column))) lines))
  (write-region (concat (string-join (nreverse lines) "\n") "\n") nil out nil 'silent))
