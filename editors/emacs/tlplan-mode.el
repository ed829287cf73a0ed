;;; tlplan-mode.el --- Files of the planner tlplan -*- lexical-binding: t -*-

;;; Commentary:

;; Words, parentheses and comments of domain, problem, plan, proof and costs files, and the jump to the place where a file is
;; refused.
;;
;;   (require 'tlplan-mode)
;;
;; In such a buffer M-x compile asks for the words of `tlplan-where', and M-x next-error goes to the place.

;;; Code:

(require 'compile)

(defvar tlplan-where "tlplan-where"
  "The tool that runs tlplan and says where a file is refused.")

(defvar tlplan-mode-syntax-table
  (let ((table (make-syntax-table)))
    (modify-syntax-entry ?\; "<" table)
    (modify-syntax-entry ?\n ">" table)
    (modify-syntax-entry ?\( "()" table)
    (modify-syntax-entry ?\) ")(" table)
    (dolist (letter (append "[]{}\"'`,|\\" nil))
      (modify-syntax-entry letter "." table))
    (dolist (letter (append "!#$%&*+-./:<=>?@^_~" nil))
      (modify-syntax-entry letter "_" table))
    table)
  "The syntax of the files of tlplan.")

(defvar tlplan-font-lock-keywords
  (let ((words (lambda (&rest names) (concat "(\\(" (regexp-opt names) "\\)\\_>"))))
    `((,(funcall words "domain" "problem" "predicate" "function" "define" "defined" "operator" "bounds" "pre" "effects"
                 "control" "init" "goal" "repeat" "pair" "none" "none-within")
       1 font-lock-keyword-face)
      (,(funcall words "add" "del" "set" "when" "each") 1 font-lock-type-face)
      (,(funcall words "next" "always" "eventually" "until" "within" "for") 1 font-lock-builtin-face)
      (,(funcall words "not" "and" "or" "implies" "forall" "exists") 1 font-lock-function-name-face)
      ("\\_<\\(?:true\\|false\\)\\_>" . font-lock-constant-face)
      ("\\_<\\?\\(?:\\sw\\|\\s_\\)*" . font-lock-variable-name-face)))
  "What is shown in colours in the files of tlplan.")

(defun tlplan-indentation ()
  "One column more than the line in which the list begins that this line stands in."
  (save-excursion
    (beginning-of-line)
    (let ((open (nth 1 (syntax-ppss))))
      (if open (progn (goto-char open) (1+ (current-indentation))) 0))))

(defun tlplan-indent-line ()
  "Indent a line as `tlplan-indentation' says."
  (interactive)
  (if (<= (current-column) (current-indentation))
      (indent-line-to (tlplan-indentation))
    (save-excursion (indent-line-to (tlplan-indentation)))))

;;;###autoload
(define-derived-mode tlplan-mode prog-mode "tlplan"
  "Major mode for domain, problem, plan, proof and costs files of tlplan."
  (setq-local comment-start "; ")
  (setq-local comment-start-skip ";+[ \t]*")
  (setq-local comment-end "")
  (setq-local font-lock-defaults '(tlplan-font-lock-keywords))
  (setq-local indent-line-function #'tlplan-indent-line)
  (setq-local indent-tabs-mode nil)
  (setq-local compile-command (concat tlplan-where " "))
  ;; The tool counts bytes, and a tab as one.
  (setq-local compilation-error-screen-columns nil))

;;;###autoload
(add-to-list 'auto-mode-alist '("\\.\\(?:domain\\|problem\\|plan\\|proof\\|costs\\)\\'" . tlplan-mode))

(add-to-list 'compilation-error-regexp-alist 'tlplan)
(add-to-list 'compilation-error-regexp-alist-alist
             '(tlplan "^\\([^ \t\n:][^\n:]*\\):\\([0-9]+\\):\\([0-9]+\\): \\(?:rule\\|past\\|\\(note\\)\\)" 1 2 3 (4)))

(provide 'tlplan-mode)
;;; tlplan-mode.el ends here
